//! The search for rows within the limits whose product is a NaN in the Rust; there, this library adds 0 (document 01).
use crate::report::{Kind, Seen};
use crate::rng::Rng;
use crate::values::{fits, POINT};
use phonors::probe::{probe_row, WeightFunction};

pub const KINDS: [Kind; 2] = [
    Kind::new("rows searched for a NaN, I", &[]),
    Kind::new("rows searched for a NaN, J", &[]),
];

/// Values at which something changes: zeros, ends of the limits, 1e-10 and the floats beside it, near 1, far from it.
fn special(r: &mut Rng) -> f64 {
    let e = 1e-10;
    r.pick(&[
        0.0,
        -0.0,
        POINT[0],
        POINT[0].next_up(),
        -POINT[0],
        2f64.powi(-600),
        2f64.powi(-330),
        e,
        e.next_up(),
        e.next_down(),
        -e,
        e / 2.0,
        2.0 * e,
        3.0 * e,
        3e-17,
        1e-5,
        1.0,
        1.0f64.next_up(),
        1.0 + e,
        1.0 + 1.5 * e,
        1.0 - e / 2.0,
        4.0,
        -4.0,
        1e9,
        1e9 + 2e-7,
        2f64.powi(30),
        POINT[1],
        POINT[1].next_down(),
        -POINT[1],
    ])
}

fn vertex(r: &mut Rng, style: usize, base: f64) -> f64 {
    match style {
        0 => base + (r.unit() - 0.5) * 4e-10,
        1 => base + r.below(6) as f64 * 0.5e-10,
        2 => base + r.below(3) as f64,
        3 => f64::from_bits(base.to_bits().wrapping_add(r.below(8) as u64)),
        4 => (1.0 + r.unit()) * 2f64.powi(r.between(-660, -657) as i32),
        5 => {
            let x = (1.0 + r.unit()) * 2f64.powi(r.between(-660, 30) as i32);
            r.sign(x)
        }
        6 => r.unit() * 20.0,
        _ => special(r),
    }
}

fn row(r: &mut Rng) -> [f64; 4] {
    let style = r.below(12);
    let base = match r.below(4) {
        0 => 0.0,
        1 => r.unit() * 20.0,
        2 => 2f64.powi(r.between(-30, 29) as i32),
        _ => (r.unit() - 0.5) * 2f64.powi(32),
    };
    [0.0; 4].map(|_| {
        let x = vertex(r, style, base);
        if fits(x, POINT) {
            x
        } else {
            base
        }
    })
}

/// Mostly on a vertex, beside one, or between two.
fn omega(r: &mut Rng, row: &[f64; 4]) -> f64 {
    let (a, b) = (r.pick(row), r.pick(row));
    let x = match r.below(8) {
        0..=2 => a,
        3 => a.next_up(),
        4 => a.next_down(),
        5 => a + 1e-10 * r.unit(),
        6 => special(r),
        _ => a + (b - a) * r.unit(),
    };
    if fits(x, POINT) {
        x
    } else {
        a
    }
}

pub fn cases(r: &mut Rng, seen: &mut [Seen]) {
    for (k, function) in [WeightFunction::I, WeightFunction::J]
        .into_iter()
        .enumerate()
    {
        let row = row(r);
        let at = omega(r, &row);
        let (branch, product) = probe_row(at, &row, function);
        let show = || format!("{product} in branch {branch} at {at:e} of {row:?}");
        seen[k].note(0, product.is_finite(), show);
    }
}

/// Just outside the limits there is one, and the search would see it.
pub fn outside() -> bool {
    let least = f64::from_bits(1);
    let row = [0.0, 0.0, least, least];
    let seen = probe_row(0.0, &row, WeightFunction::I).1.is_nan();
    println!(
        "a row outside the limits, {row:?} at 0: {}",
        if seen { "NaN" } else { "no NaN" }
    );
    seen
}
