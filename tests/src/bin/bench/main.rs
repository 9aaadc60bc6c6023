//! `cargo run --release --bin bench`: the library's speed beside Rust, and with the feature `before`
//! beside the library of an earlier commit, on the same inputs in the same run. Times are of this
//! thread's own work, not of its waiting for a processor, and the contenders take turns, so that a
//! busy machine slows all of them alike.
//!
//! Tables are of two kinds: of powers, each entry z times the one before, which the plan test may
//! know by their look; and of the same entries in another order, where it has to test all pairs.

mod alter;
#[cfg(feature = "before")]
mod before;
mod columns;
mod making;
mod plan_test;
mod put;
mod runs;
mod sheets;
mod sparse;
mod stack;
mod subject;
mod timing;
mod trial;
mod two;

fn main() {
    println!(
        "Tables: powers of z (powers), or the same with each row and column reversed (others)."
    );
    println!("Best Rust: the best scalar Rust that tests all pairs.");
    println!();
    making::making();
    making::house();
    plan_test::plan_test();
    sheets::write_and_read();
    runs::runs();
    alter::alterations();
    two::two_scans();
    two::differences();
    stack::stacks();
    columns::columns();
    columns::turns();
    trial::trials();
    put::putting_back();
    sparse::plan_test();
    sparse::write_and_read();
    #[cfg(feature = "before")]
    before::beside();
}
