//! Questions 23 to 25, of a customer's table, in ways of the judge's own: a row's determinant and the direction's factors come from Euclid's
//! steps on three equations, and each face gathers from all rows the sides on which they lie.
use crate::study::rows;
use std::collections::BTreeMap;

pub type Corner = [i64; 3];

const DIRECTION: Corner = [1, 100, 10000];

/// Question 23.
pub fn good_rows(table: &[i64]) -> bool {
    table.len() == 24 * 12 && rows(table).iter().all(good_row)
}

fn good_row(row: &[Corner; 4]) -> bool {
    row[0] == [0; 3]
        && row.iter().flatten().all(|x| (-2..=2).contains(x))
        && [1, -1].contains(&solved(row).determinant)
}

/// Question 24: each face has two rows, one on either side.
pub fn paired(table: &[i64]) -> bool {
    let mut sides: BTreeMap<[Corner; 2], Vec<i64>> = BTreeMap::new();
    for row in rows(table) {
        // on this side of each of its faces, if these are gone along in turn
        let side = solved(&row).determinant.signum();
        for [p, q] in [[1, 2], [2, 3], [3, 1]].map(|face| face.map(|k| row[k])) {
            let (face, side) = if p < q {
                ([p, q], side)
            } else {
                ([q, p], -side)
            };
            sides.entry(face).or_default().push(side);
        }
    }
    sides.values().all(|s| s.len() == 2 && s[0] + s[1] == 0)
}

/// Question 25.
pub fn one_cone(table: &[i64]) -> bool {
    let holds = |row: &&[Corner; 4]| solved(row).factors.iter().all(|x| *x > 0);
    rows(table).iter().filter(holds).count() == 1
}

/// Corners 1 to 3 of a row: their determinant and, where it is 1 or -1, how many times each of them makes up the direction.
struct Solved {
    determinant: i64,
    factors: [i64; 3],
}

fn solved(row: &[Corner; 4]) -> Solved {
    // an equation for each component: what stands before the three factors, and the direction's
    let mut equations = [0, 1, 2].map(|k| [row[1][k], row[2][k], row[3][k], DIRECTION[k]]);
    let determinant = (0..3).map(|k| clear(&mut equations, k)).product();
    let mut factors = [0; 3];
    for k in [2, 1, 0] {
        let known: i64 = (k + 1..3).map(|j| equations[k][j] * factors[j]).sum();
        // a division by 1 or -1
        factors[k] = (equations[k][3] - known) * equations[k][k];
    }
    Solved {
        determinant,
        factors,
    }
}

/// Takes equation k from those below it, or them from it, until factor k stands in none of these. What then stands before it in equation
/// k, with the sign of the exchanges.
fn clear(equations: &mut [[i64; 4]; 3], k: usize) -> i64 {
    let mut sign = 1;
    for below in k + 1..3 {
        while equations[below][k] != 0 {
            let times = equations[k][k] / equations[below][k];
            for j in k..4 {
                equations[k][j] -= times * equations[below][j];
            }
            equations.swap(k, below);
            sign = -sign;
        }
    }
    sign * equations[k][k]
}
