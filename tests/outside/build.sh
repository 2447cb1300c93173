# shellcheck shell=bash
# shellcheck disable=SC2034 # what is set here is used by those who read it
# Read by the gate, tests/outside.sh, tests/stack.sh, bin/speed and bin/release at the repository's root. Rust programs that link a static library are
# x86-64: there any rustc builds them and they run as they are; on Arm they are built with Debian's packages for x86-64 and run under
# Debian's emulator.

built=target/outside
compile=()
compile_c=()
run_by=()
emulate=()
why=

# tools: what builds and runs x86-64 Rust here, which bin/setup installs; else 1, with the reason in `why`
tools() {
    why=$(bin/setup --missing 2>&1) || return 1
    mkdir -p "$built"
    if [ "$(uname -m)" = x86_64 ]; then
        compile=(rustc)
        compile_c=(cc)
        return 0
    fi
    # Debian's own rustc: another one on the path has no x86-64 standard library
    compile=(/usr/bin/rustc --target x86_64-unknown-linux-gnu -C linker=x86_64-linux-gnu-gcc)
    compile_c=(x86_64-linux-gnu-gcc)
    run_by=(qemu-x86_64)
}

# emulator: what runs an x86-64 program by Debian's emulator, to `emulate`; 1 where it is not here. It makes the processor's own copying and
# clearing of memory byte by byte: the C library is told to do without.
emulator() {
    local never=1000000000
    command -v qemu-x86_64 >/dev/null || return 1
    emulate=(qemu-x86_64 -E "GLIBC_TUNABLES=glibc.cpu.x86_rep_stosb_threshold=$never:glibc.cpu.x86_rep_movsb_threshold=$never")
}

# the crates that other languages call: libexports.a and libdisplay_exports.a, in target/staticlib, each made by a static library over it, NAME_c
libraries=(exports display_exports)

# one_archive NAME: proves and builds target/staticlib/libNAME.a, unless it is newer than everything that it is made of
one_archive() {
    local archive=target/staticlib/lib$1.a made=crates/$1_c/out/lib$1_c.a
    local made_of=(crates.txt crates -name out -prune -o '(' -type d -path 'crates/*/*' -o -name '*.rt' -o -name '*.antt' -o -name crates.txt ')')
    [ -n "$(find "${made_of[@]}" -newer "$archive" -print 2>&1 | head -n 1)" ] || return 0
    if ! { (cd "crates/$1_c" && rt lib </dev/null) && mkdir -p "${archive%/*}" && cp "$made" "$archive"; } >"$built/staticlib.log" 2>&1; then
        echo "outside: rt lib of $1_c failed:"
        tail -n 20 "$built/staticlib.log"
        return 1
    fi
}

# archive: builds the static libraries. Tests that run at the same time wait for one another here, so that the first alone builds them.
archive() {
    local name
    (
        flock 9
        for name in "${libraries[@]}"; do
            one_archive "$name" || exit 1
        done
    ) 9>"$built/staticlib.lock"
}

# joined: the static libraries as one, to target/flood: libflood.a, and libflood.so, which the linker makes only where all code is position
# independent (-z text) and nothing is missing (-z defs). Unless they are newer; the first alone makes them.
joined() {
    local folder=target/flood parts name
    mkdir -p "$folder"
    (
        flock 9
        [ -n "$(find target/staticlib/*.a -newer "$folder/libflood.so" 2>&1 | head -n 1)" ] || exit 0
        parts=$(mktemp -d) || exit 1
        trap 'rm -rf "$parts"' EXIT
        for name in "${libraries[@]}"; do
            ar x --output "$parts" "target/staticlib/lib$name.a" || exit 1
        done
        rm -f "$folder/libflood.a"
        ar crD "$folder/libflood.a" "$parts"/*.o &&
            "${compile_c[@]}" -shared -nostartfiles -Wl,-soname,libflood.so -Wl,-z,text -Wl,-z,defs -Wl,-z,noexecstack -Wl,--build-id=none \
                -Wl,--whole-archive "$folder/libflood.a" -Wl,--no-whole-archive -o "$folder/libflood.so"
    ) 9>"$built/joined.lock"
}

# for release, in one unit
release=(--edition 2021 -C opt-level=3 -C codegen-units=1)

# wrapper: the crate rust/ with the static libraries in it, as cargo would build it, to target/outside/libflood.rlib, unless it is newer than
# they are; the first alone builds it
wrapper() {
    (
        flock 9
        [ -n "$(find rust/src target/staticlib/*.a -newer "$built/libflood.rlib" 2>&1 | head -n 1)" ] || exit 0
        "${compile[@]}" "${release[@]}" --crate-type rlib --crate-name flood -L native=target/staticlib "${libraries[@]/#/-lstatic=}" \
            --out-dir "$built" rust/src/lib.rs
    ) 9>"$built/wrapper.lock"
}

# build NAME: tests/outside/NAME.rs with the crate rust/, to target/outside/NAME
build() {
    "${compile[@]}" "${release[@]}" --extern "flood=$built/libflood.rlib" -o "$built/$1" "tests/outside/$1.rs"
}

# build_c NAME: the same of tests/outside/NAME.c
build_c() {
    "${compile_c[@]}" -std=c99 -Wall -Wextra -Werror -O -o "$built/$1" "tests/outside/$1.c" -Ltarget/staticlib "${libraries[@]/#/-l}"
}

# build_engine NAME: the crate tests/outside/NAME.rs of one Rust engine, alone
build_engine() {
    "${compile[@]}" "${release[@]}" --crate-type rlib --crate-name "$1" --out-dir "$built" "tests/outside/$1.rs"
}

# build_speed: tests/outside/speed.rs with the engines, which are built, to target/outside/libspeed.rlib
build_speed() {
    local externs=(--extern "flood=$built/libflood.rlib") engine
    for engine in tests/outside/engine_*.rs; do
        engine=$(basename "$engine" .rs)
        externs+=(--extern "$engine=$built/lib$engine.rlib")
    done
    "${compile[@]}" "${release[@]}" "${externs[@]}" --crate-type rlib --crate-name speed --out-dir "$built" tests/outside/speed.rs
}

# build_placed BYTES: the benchmark's program with so much room before its code, to target/outside/speed-BYTES
build_placed() {
    PADDING=$1 "${compile[@]}" "${release[@]}" -L "$built" --extern "speed=$built/libspeed.rlib" -o "$built/speed-$1" tests/outside/placed.rs
}

# build_counter: the emulator's plugin of tests/outside/count.c, to target/outside/count.so; 1 where this emulator takes none
build_counter() {
    local version
    for version in 1 2 3 4 5; do
        cc -std=c99 -Wall -Wextra -Werror -O -fPIC -shared -DPLUGIN_VERSION="$version" -o "$built/count.so" tests/outside/count.c || return 1
        ! "${emulate[@]}" -plugin "$built/count.so" "$built/speed-0" engines >/dev/null 2>&1 || return 0
    done
    return 1
}
