//! The benchmark's program, with room laid before its code, which moves all code that comes after it.

std::arch::global_asm!(
    ".pushsection .text.unlikely.padding, \"ax\", @progbits",
    ".globl padding_before_code",
    "padding_before_code:",
    concat!(".skip ", env!("PADDING"), ", 0x90"),
    ".popsection"
);

extern "C" {
    fn padding_before_code();
}

fn main() {
    speed::main(padding_before_code as *const () as usize);
}
