//! One check of a customer's table: the four tables in use, which are accepted, in turn.
use crate::calls;
use crate::clock::{clock, median};
use phonors::tetrahedron_method::all_relative_grid_address;
use std::hint::black_box;

pub fn tables() -> [Vec<i64>; 4] {
    all_relative_grid_address().map(|table| table.concat().concat())
}

/// So many checks.
pub fn run(tables: &[Vec<i64>; 4], checks: usize) {
    for k in 0..checks {
        let no = calls::check_table(black_box(&tables[k % 4]));
        assert!(no == 0, "refused {no}");
    }
}

/// Microseconds of one check, the median of the rounds.
pub fn time(checks: usize, rounds: usize) -> f64 {
    let tables = tables();
    let one = |_| clock(|| run(&tables, checks)) * 1e3 / checks as f64;
    median((0..rounds).map(one).collect())
}
