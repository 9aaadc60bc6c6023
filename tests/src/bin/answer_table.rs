//! `cargo run --no-default-features --bin answer_table > answers.expected`: the table that answers.c reads.

use sheet_tests::table;

fn main() {
    print!("{}", table::answers());
}
