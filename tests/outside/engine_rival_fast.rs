//! The rival with the fastest whole-number roots, built alone: its walks are inlined, and shared with no other.

mod lent;
mod rival;
// other kinds of roots are not used here
#[allow(dead_code)]
mod roots;

pub static RUN_TO: lent::RunTo = lent::run_to::<rival::Rival<roots::Guesses>>;
