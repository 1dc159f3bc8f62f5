//! Neighbouring grid points: one point, many.
use crate::grids::{self, aimed, grid};
use crate::lent::{any, Lent};
use crate::report::{Kind, Seen};
use crate::rng::Rng;
use crate::studies::{off_grid, other_length, table};
use crate::study::{triples, Grid};
use crate::{asks, calls};
use phonors::bzgrid::neighboring_grid_points_many;
use phonors::reach::neighbours_of_one;

pub const KINDS: [Kind; 2] = [
    Kind::new("neighbours of one point", &[3, 4, 5, 6, 7, 10, 12]),
    Kind::new("neighbours of many points", &[3, 4, 5, 6, 7, 9, 10, 12]),
];

/// Calls on one grid.
pub fn cases(r: &mut Rng, seen: &mut [Seen]) {
    let g = grid(r);
    for _ in 0..4 {
        one(r, &g, &mut seen[0]);
        many(r, &g, &mut seen[1]);
    }
}

fn steps(r: &mut Rng, g: &Grid, from: usize) -> Vec<i64> {
    let count = r.between(1, 6);
    match r.below(8) {
        0 => table(r),
        1 => (0..3 * count)
            .map(|_| r.pick(&[4096, -4096, 4095, 0, 1]))
            .collect(),
        2 => (0..3 * count).map(|_| r.between(-200, 200)).collect(),
        3 | 4 => (0..count).flat_map(|_| aimed(r, g, from)).collect(),
        _ => (0..3 * count).map(|_| r.between(-3, 3)).collect(),
    }
}

fn spoil_steps(r: &mut Rng, s: &mut Vec<i64>) {
    match r.below(5) {
        0 => s.clear(),
        1 => s.truncate(r.between(1, 2) as usize),
        2 => s.push(0),
        _ => {
            if !s.is_empty() {
                let k = r.below(s.len());
                s[k] = r.pick(&[4097, -4097, i64::MAX, i64::MIN]);
            }
        }
    }
}

fn one(r: &mut Rng, sound: &Grid, seen: &mut Seen) {
    let mut g = sound.clone();
    let mut gp = r.below(g.count()) as i64;
    let mut rel = steps(r, &g, gp as usize);
    let mut shorter = false;
    for k in r.faults(7) {
        match k {
            0..=3 => grids::FAULTS[k](r, &mut g),
            4 => spoil_steps(r, &mut rel),
            5 => gp = off_grid(r, g.count() as i64),
            _ => shorter = true,
        }
    }
    let right = rel.len() / 3;
    let room = if shorter {
        other_length(r, right)
    } else {
        right
    };
    let no = asks::one_point(&g, gp, &rel, room);
    let mut want: Vec<i64> = any(r, room);
    let mut out = Lent::new(r, &want);
    let answer = calls::one_point(&g, out.lend(), gp, &rel);
    if no == 0 {
        let addresses = triples(&g.addresses);
        neighbours_of_one(&mut want, gp, &triples(&rel), &g.view(&addresses)).unwrap();
    }
    let right = answer == no && out.holds(&want);
    seen.note(no, right, || {
        format!("{answer}, point {gp}, steps {rel:?}, {g:?}")
    });
}

fn many(r: &mut Rng, sound: &Grid, seen: &mut Seen) {
    let mut g = sound.clone();
    let count = if r.one_in(20000) { 65536 } else { r.below(5) };
    let mut gps: Vec<i64> = (0..count).map(|_| r.below(g.count()) as i64).collect();
    let from = gps.first().map_or(0, |x| *x as usize);
    let mut rel = if count > 100 {
        vec![1, 0, -1]
    } else {
        steps(r, &g, from)
    };
    let mut shorter = false;
    for k in r.faults(8) {
        match k {
            0..=3 => grids::FAULTS[k](r, &mut g),
            4 => spoil_steps(r, &mut rel),
            5 if r.one_in(4) => gps.resize(65536 + r.pick(&[1, 2, 100]), 0),
            6 if !gps.is_empty() => {
                let k = r.below(gps.len());
                gps[k] = off_grid(r, g.count() as i64);
            }
            7 => shorter = true,
            _ => (),
        }
    }
    let right = (gps.len() * (rel.len() / 3)).min(1 << 17);
    let room = if shorter {
        other_length(r, right)
    } else {
        right
    };
    let no = asks::many_points(&g, &gps, &rel, room);
    let mut want: Vec<i64> = any(r, room);
    let mut out = Lent::new(r, &want);
    let answer = calls::many_points(&g, out.lend(), &gps, &rel);
    if no == 0 && !gps.is_empty() {
        let addresses = triples(&g.addresses);
        let view = g.view(&addresses);
        neighboring_grid_points_many(&mut want, &gps, &triples(&rel), &view).unwrap();
    }
    let right = answer == no && out.holds(&want);
    seen.note(no, right, || {
        format!("{answer}, points {gps:?}, steps {rel:?}, {g:?}")
    });
}
