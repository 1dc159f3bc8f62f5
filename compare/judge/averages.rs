//! Averages over degenerate sets.
use crate::lent::{any, same, Lent};
use crate::report::{Kind, Seen};
use crate::rng::{Rng, FAR};
use crate::studies::{other_length, spoiled_count, spoiled_type};
use crate::{asks, calls};
use phonors::triplet_iw::average_weights_over_degenerate_sets;

pub const KINDS: [Kind; 1] = [Kind::telling(
    "averages",
    &[8, 9, 12, 17, 19],
    "change a weight",
)];

/// A list of ids of so many bands: each goes on with the set before it or starts one.
pub fn ids(r: &mut Rng, bands: usize) -> Vec<i64> {
    let odds = r.pick(&[1, 2, 2, 3, 8, 100]);
    let mut list: Vec<i64> = vec![];
    for k in 0..bands {
        let on = k > 0 && !r.one_in(odds);
        list.push(if on { list[k - 1] } else { k as i64 });
    }
    list
}

/// A fault in one of two lists.
pub fn spoil_ids(r: &mut Rng, lists: &mut [Vec<i64>; 2]) {
    let list = &mut lists[r.below(2)];
    let n = list.len() as i64;
    match r.below(5) {
        0 => drop(list.pop()),
        1 => list.push(n),
        2 if n > 2 => {
            // an id that is right as a number, of a set that has ended
            *list = (0..n).collect();
            list[n as usize - 1] = r.between(0, n - 3);
        }
        _ => {
            if n > 0 {
                let k = r.below(n as usize);
                list[k] = r.pick(&[-1, k as i64 + 1, n, n + 5, FAR[0], FAR[1]]);
            }
        }
    }
}

/// A weight that question 19 takes.
pub fn weight(r: &mut Rng) -> f64 {
    let limit = 2f64.powi(60);
    let x = match r.below(12) {
        0 => return 0.0,
        1 => limit,
        2 => r.between(1, 9) as f64,
        3 => (1.0 + r.unit()) * 2f64.powi(-r.between(900, 1022) as i32),
        4 => f64::from_bits(r.between(1, 9) as u64),
        5 => (1.0 + r.unit()) * 2f64.powi(r.between(-70, 59) as i32),
        _ => r.unit() + 1e-3,
    };
    r.sign(x)
}

/// A weight that question 19 turns down.
pub fn spoiled_weight(r: &mut Rng) -> f64 {
    let limit = 2f64.powi(60).next_up();
    let far = r.pick(&[f64::INFINITY, f64::NAN, limit, 2f64.powi(61), f64::MAX]);
    if r.one_in(3) {
        -0.0
    } else {
        r.sign(far)
    }
}

pub fn flag(r: &mut Rng) -> i8 {
    r.pick(&[1, 1, 1, 1, 1, 1, 1, 1, 0, 0, 2, -1, 127, -128])
}

#[derive(Debug)]
struct Call {
    tp: i64,
    points: i64,
    bands: i64,
    ids: [Vec<i64>; 2],
}

fn sound(r: &mut Rng) -> Call {
    let (points, bands) = match r.below(1000) {
        0 => (r.pick(&[1023, 1024]), 1),
        1..=3 => (1, 64),
        _ => (r.between(1, 3), r.between(1, 8)),
    };
    let ids = [ids(r, bands as usize), ids(r, bands as usize)];
    Call {
        tp: r.between(2, 4),
        points,
        bands,
        ids,
    }
}

pub fn cases(r: &mut Rng, seen: &mut [Seen]) {
    let mut c = sound(r);
    let (mut longer, mut spoiled) = (false, false);
    for k in r.faults(5) {
        match k {
            0 => c.tp = spoiled_type(r),
            1 if r.one_in(2) => c.bands = spoiled_count(r, 64),
            1 => c.points = spoiled_count(r, 1024),
            2 => longer = true,
            3 => spoil_ids(r, &mut c.ids),
            _ => spoiled = true,
        }
    }
    let cells = (c.points.clamp(0, 1025) * c.bands.clamp(0, 64).pow(2)) as usize;
    let cells = cells.min(1 << 13);
    let channels = *asks::CHANNELS.get(c.tp.clamp(0, 9) as usize).unwrap_or(&1) as usize;
    let (mut w, mut f) = (channels * cells, cells);
    if longer {
        let which = if r.one_in(2) { &mut w } else { &mut f };
        *which = other_length(r, *which);
    }
    let mut weights: Vec<f64> = (0..w).map(|_| weight(r)).collect();
    if spoiled && w > 0 {
        weights[r.below(w)] = spoiled_weight(r);
    }
    let flags = if r.one_in(8) {
        any(r, f)
    } else {
        (0..f).map(|_| flag(r)).collect()
    };
    one(r, &c, weights, flags, &mut seen[0]);
}

fn one(r: &mut Rng, c: &Call, mut weights: Vec<f64>, mut flags: Vec<i8>, seen: &mut Seen) {
    let ids = [c.ids[0].as_slice(), c.ids[1].as_slice()];
    let no = asks::averages(&asks::Averages {
        weights: &weights,
        flags: flags.len(),
        ids,
        points: c.points,
        bands: c.bands,
        tp: c.tp,
    });
    let before = weights.clone();
    let mut out = (Lent::new(r, &weights), Lent::new(r, &flags));
    let answer = calls::averages(out.0.lend(), out.1.lend(), ids, c.points, c.bands, c.tp);
    if no == 0 {
        let (points, bands) = (c.points as usize, c.bands as usize);
        average_weights_over_degenerate_sets(
            &mut weights,
            &mut flags,
            ids[0],
            ids[1],
            points,
            bands,
        );
    }
    let right = answer == no && out.0.holds(&weights) && out.1.holds(&flags);
    seen.tell(no == 0 && !same(&weights, &before));
    seen.note(no, right, || {
        format!("{answer}, {c:?}, {weights:?}, {flags:?}")
    });
}
