//! Request 7: a customer's table alone, and weights at grid points under it. The Rust, which asks nothing, is run with the same table.
use crate::customer_tables::{table, FAULTS};
use crate::gridpoints::{self, Entry, NOT_ZERO};
use crate::report::{Kind, Seen};
use crate::rng::Rng;
use crate::{asks, calls};

const NUMBERS: &[u64] = &[3, 4, 5, 6, 7, 9, 10, 11, 12, 23, 24, 25];

pub const KINDS: [Kind; 3] = [
    Kind::new("a customer's table", &[7, 23, 24, 25]),
    Kind::telling("weights by a customer's table I", NUMBERS, NOT_ZERO),
    Kind::telling("weights by a customer's table J", NUMBERS, NOT_ZERO),
];

const CHECKED: Entry = Entry {
    asks: asks::checked_grid_points,
    call: calls::checked_grid_points,
    table,
    faults: &FAULTS,
};

/// Tables alone, and one that is taken to the other entry too: what is accepted alone must be accepted there with a sound study.
pub fn cases(r: &mut Rng, seen: &mut [Seen]) {
    for _ in 0..4 {
        let mut t = table(r);
        for k in r.faults(FAULTS.len()) {
            FAULTS[k](r, &mut t);
        }
        alone(&t, &mut seen[0]);
    }
    let case = gridpoints::case(r, &CHECKED);
    alone(case.table(), &mut seen[0]);
    gridpoints::judge(r, &case, &CHECKED, &mut seen[1..]);
}

fn alone(t: &[i64], seen: &mut Seen) {
    let no = asks::customer_table(t);
    let answer = calls::check_table(t);
    seen.note(no, answer == no, || format!("{answer}, {t:?}"));
}
