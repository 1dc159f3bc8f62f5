//! Tables that a customer could hand in: closed fans of 24 rows, and what goes wrong with them. Whether one is accepted is left to asks.rs.
use crate::fans::Corner;
use crate::rng::Rng;
use crate::studies::spoil_table;
use phonors::tetrahedron_method::all_relative_grid_address;
use std::collections::BTreeSet;

/// Corners 1 to 3.
type Row = [Corner; 3];
type Fan = Vec<Row>;

fn flat(fan: &[Row]) -> Vec<i64> {
    fan.iter()
        .flat_map(|row| [[0; 3], row[0], row[1], row[2]])
        .flatten()
        .collect()
}

fn fan(table: &[i64]) -> Fan {
    let corner = |row: &[i64], k: usize| [row[3 * k], row[3 * k + 1], row[3 * k + 2]];
    table
        .chunks_exact(12)
        .map(|row| [1, 2, 3].map(|k| corner(row, k)))
        .collect()
}

fn corner(r: &mut Rng) -> Corner {
    [0; 3].map(|_| r.between(-2, 2))
}

fn small(c: &Corner) -> bool {
    c.iter().all(|x| x.abs() <= 2)
}

fn plus(a: Corner, b: Corner) -> Corner {
    [0, 1, 2].map(|k| a[k] + b[k])
}

fn minus(a: Corner) -> Corner {
    a.map(|x| -x)
}

fn determinant(row: &Row) -> i64 {
    let [a, b, c] = row;
    let minor = |i: usize, j: usize| b[i] * c[j] - b[j] * c[i];
    a[0] * minor(1, 2) - a[1] * minor(0, 2) + a[2] * minor(0, 1)
}

/// Three corners of any kind whose determinant is as it should be.
fn corners(r: &mut Rng, right: fn(i64) -> bool) -> Row {
    loop {
        let row = [0; 3].map(|_| corner(r));
        if right(determinant(&row)) {
            return row;
        }
    }
}

fn basis(r: &mut Rng) -> Row {
    corners(r, |d| d.abs() == 1)
}

/// A table of the Rust's, or its image.
fn built_in(r: &mut Rng) -> Fan {
    let rows = fan(&all_relative_grid_address()[r.below(4)].concat().concat());
    if r.one_in(3) {
        return rows;
    }
    image(r, &rows, true)
}

/// The image of a fan under a map with entries -2 to 2 that has an inverse of whole numbers: all components -2 to 2 again, or not all.
fn image(r: &mut Rng, of: &Fan, fits: bool) -> Fan {
    loop {
        let [x, y, z] = basis(r);
        let mapped = |c: &Corner| [0, 1, 2].map(|k| c[0] * x[k] + c[1] * y[k] + c[2] * z[k]);
        if of.iter().flatten().all(|c| small(&mapped(c))) == fits {
            return of.iter().map(|row| row.each_ref().map(mapped)).collect();
        }
    }
}

/// The least closed fan: three corners, and minus their sum.
fn four(r: &mut Rng) -> Fan {
    loop {
        let [a, b, c] = basis(r);
        let d = minus(plus(a, plus(b, c)));
        if small(&d) {
            return vec![[a, b, c], [a, b, d], [a, c, d], [b, c, d]];
        }
    }
}

/// A row, or both rows with a face, split at the sum of its corners, where that is small: two rows more.
fn split(r: &mut Rng, fan: &mut Fan) {
    let row = r.pick(fan);
    let of = &row[..r.between(2, 3) as usize];
    let sum = of.iter().fold([0; 3], |s, c| plus(s, *c));
    if !small(&sum) {
        return;
    }
    let (with, mut all): (Fan, Fan) = fan
        .iter()
        .partition(|row| of.iter().all(|c| row.contains(c)));
    for row in with {
        all.extend(
            of.iter()
                .map(|c| row.map(|x| if x == *c { sum } else { x })),
        );
    }
    mix(r, &mut all);
    *fan = all;
}

/// A fan split until it has so many rows; none where it is stuck.
fn grown(r: &mut Rng, mut fan: Fan, rows: usize) -> Option<Fan> {
    for _ in 0..20 * rows {
        if fan.len() >= rows {
            return Some(fan);
        }
        split(r, &mut fan);
    }
    None
}

/// A closed fan of so many rows, an even number from 4 on.
fn closed(r: &mut Rng, rows: usize) -> Fan {
    loop {
        let start = four(r);
        if let Some(fan) = grown(r, start, rows) {
            return fan;
        }
    }
}

/// Two rows with a face that are a flat square's halves become its other halves.
fn turn(r: &mut Rng, fan: &mut Fan) {
    let [p, q, s] = r.pick(fan);
    let t = plus(plus(p, q), minus(s));
    let halves = [[p, q, s], [p, q, t]].map(|row| place(fan, &row));
    if let [Some(a), Some(b)] = halves {
        fan[a] = [s, t, p];
        fan[b] = [s, t, q];
    }
}

/// Where a row stands, its corners in any order.
fn place(fan: &Fan, row: &Row) -> Option<usize> {
    fan.iter()
        .position(|other| row.iter().all(|c| other.contains(c)))
}

/// Rows between the poles of an axis and a ring of 12 corners, which goes round it so many times: 1 to 4.
fn wheel(r: &mut Rng, rounds: usize) -> Fan {
    let mut ring: Vec<[i64; 2]> = [[1, 0], [0, 1], [-1, -1]].repeat(rounds);
    while ring.len() < 12 {
        let k = r.below(ring.len());
        let [a, b] = [ring[k], ring[(k + 1) % ring.len()]];
        let between = [a[0] + b[0], a[1] + b[1]];
        if between.iter().all(|x| x.abs() <= 2) {
            ring.insert(k + 1, between);
        }
    }
    let rim = lifted(r, &ring);
    let sides = (0..12).map(|k| [rim[k], rim[(k + 1) % 12]]);
    let poles = [[0, 0, 1], [0, 0, -1]];
    let axis = r.below(3);
    let along = |c: Corner| [0, 1, 2].map(|k| c[(k + axis) % 3]);
    sides
        .flat_map(|[a, b]| poles.map(|pole| [a, b, pole].map(along)))
        .collect()
}

/// A ring with third components, so that no corner comes twice.
fn lifted(r: &mut Rng, ring: &[[i64; 2]]) -> Vec<Corner> {
    let mut rim: Vec<Corner> = vec![];
    while rim.len() < ring.len() {
        let [x, y] = ring[rim.len()];
        let corner = [x, y, r.between(-2, 2)];
        if !rim.contains(&corner) {
            rim.push(corner);
        }
    }
    rim
}

/// Rows in another order, and corners 1 to 3 of each.
fn mix(r: &mut Rng, fan: &mut Fan) {
    r.shuffle(fan);
    fan.iter_mut().for_each(|row| r.shuffle(row));
}

/// A sound table.
pub fn table(r: &mut Rng) -> Vec<i64> {
    let mut fan = match r.below(8) {
        0 | 1 => closed(r, 24),
        2 => wheel(r, 1),
        _ => built_in(r),
    };
    if r.one_in(4) {
        (0..r.between(1, 40)).for_each(|_| turn(r, &mut fan));
    }
    if r.one_in(2) {
        mix(r, &mut fan);
    }
    flat(&fan)
}

/// Faults of questions 25, 24, 23 and 7: in this order none undoes another that comes before it.
pub const FAULTS: [fn(&mut Rng, &mut Vec<i64>); 4] =
    [spoil_cones, spoil_faces, spoil_rows, spoil_table];

/// The direction in more than one cone, while all faces pair up: several fans at once, or one that goes round more than once. (In no cone
/// it cannot be then.)
fn spoil_cones(r: &mut Rng, t: &mut Vec<i64>) {
    let mut fan = if r.one_in(2) {
        let rounds = r.between(2, 4) as usize;
        wheel(r, rounds)
    } else {
        several(r)
    };
    mix(r, &mut fan);
    *t = flat(&fan);
}

const PARTS: [&[usize]; 9] = [
    &[4, 4, 4, 4, 4, 4],
    &[4, 4, 4, 4, 8],
    &[4, 20],
    &[6, 18],
    &[6, 6, 12],
    &[8, 16],
    &[8, 8, 8],
    &[10, 14],
    &[12, 12],
];

/// Closed fans of 24 rows together, with no face in two of them.
fn several(r: &mut Rng) -> Fan {
    loop {
        let fan: Fan = r.pick(&PARTS).iter().flat_map(|n| closed(r, *n)).collect();
        if faces(&fan).len() == 36 {
            return fan;
        }
    }
}

fn faces(fan: &Fan) -> BTreeSet<[Corner; 2]> {
    let of = |row: &Row| [[0, 1], [1, 2], [2, 0]].map(|face| face.map(|k: usize| row[k]));
    fan.iter()
        .flat_map(of)
        .map(|[p, q]| [p.min(q), p.max(q)])
        .collect()
}

/// Rows that are good each by itself, while a gap or an overlap is between them.
fn spoil_faces(r: &mut Rng, t: &mut Vec<i64>) {
    let mut fan = fan(t);
    let k = r.below(fan.len());
    match r.below(10) {
        0 => fan[k] = r.pick(&fan),
        1 => fan[k] = fan[k].map(minus),
        2 => fan[k][0] = minus(fan[k][0]),
        3 => fan[k] = basis(r),
        4 => move_corner(r, &mut fan[k]),
        5 | 6 => move_ray(r, &mut fan),
        7 => fan = (0..24).map(|_| basis(r)).collect(),
        8 => fan = apart(r).repeat(2),
        _ => fan = overlapping(r),
    }
    if r.one_in(2) {
        mix(r, &mut fan);
    }
    *t = flat(&fan);
}

/// One of a row's corners, in that row alone, to where its determinant is 1 or -1 again.
fn move_corner(r: &mut Rng, row: &mut Row) {
    let old = *row;
    while *row == old || determinant(row).abs() != 1 {
        *row = old;
        row[r.below(3)] = corner(r);
    }
}

/// A corner, in all its rows, to where their determinants are 1 or -1 again: no face is lost, but some rows can come to lie on one side.
fn move_ray(r: &mut Rng, fan: &mut Fan) {
    for _ in 0..1000 {
        let (from, to) = (r.pick(fan)[0], corner(r));
        let moved = |row: &Row| row.map(|c| if c == from { to } else { c });
        let new: Fan = fan.iter().map(moved).collect();
        if from != to && new.iter().all(|row| determinant(row).abs() == 1) {
            *fan = new;
            return;
        }
    }
}

/// Twelve rows of which no two have a face together.
fn apart(r: &mut Rng) -> Fan {
    loop {
        let fan: Fan = (0..12).map(|_| basis(r)).collect();
        if faces(&fan).len() == 36 {
            return fan;
        }
    }
}

/// A fan given twice, or two that begin with the same rows.
fn overlapping(r: &mut Rng) -> Fan {
    let rows = r.pick(&[4, 6, 8, 10, 12]);
    let common = closed(r, rows);
    let [a, b] = [0; 2].map(|_| grown(r, common.clone(), 12).unwrap_or_else(|| closed(r, 12)));
    [a, b].concat()
}

/// What question 23 turns down, and 7 does not.
fn spoil_rows(r: &mut Rng, t: &mut Vec<i64>) {
    let k = 12 * r.below(t.len() / 12);
    let row = &mut t[k..k + 12];
    match r.below(8) {
        0 => {
            *t = [&t[..], &table(r)]
                .concat()
                .repeat(r.between(1, 2) as usize)
        }
        1 => t.extend(table(r).repeat(2)),
        2 => row[r.below(12)] = r.pick(&[3, -3, 3, -3, 4096, -4096]),
        3 => row[r.below(3)] = r.pick(&[1, -1, 2, -2]),
        4 => {
            let shift = corner(r);
            (0..t.len()).for_each(|j| t[j] += shift[j % 3]);
        }
        5 => row[3..].copy_from_slice(&corners(r, |d| d == 0).concat()),
        6 => row[3..].copy_from_slice(&corners(r, |d| d.abs() > 1).concat()),
        _ => *t = flat(&image(r, &fan(t), false)),
    }
}
