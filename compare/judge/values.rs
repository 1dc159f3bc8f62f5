//! Floats within the limits of question 11, and beyond them.
use crate::rng::Rng;

/// The least and the greatest magnitude of a frequency, of a point.
pub const FREQUENCY: [f64; 2] = [two(-600), two(30)];
pub const POINT: [f64; 2] = [two(-660), two(31)];

const fn two(power: i64) -> f64 {
    f64::from_bits(((1023 + power) as u64) << 52)
}

pub fn fits(x: f64, limits: [f64; 2]) -> bool {
    x == 0.0 || (limits[0] <= x.abs() && x.abs() <= limits[1])
}

/// A value that question 11 turns down.
pub fn beyond(r: &mut Rng, limits: [f64; 2]) -> f64 {
    let x = r.pick(&[
        limits[0].next_down(),
        limits[1].next_up(),
        f64::from_bits(1),
        f64::MAX,
        f64::INFINITY,
        f64::NAN,
    ]);
    r.sign(x)
}

#[derive(Clone, Copy, Debug)]
pub enum Style {
    Unit,
    Whole,
    Equal,
    Near,
    Beside,
    Signed,
    Zeros,
    Ends,
    Wide,
}

pub const STYLES: [Style; 9] = [
    Style::Unit,
    Style::Whole,
    Style::Equal,
    Style::Near,
    Style::Beside,
    Style::Signed,
    Style::Zeros,
    Style::Ends,
    Style::Wide,
];

/// A value of a style, within limits; `base` is what the values of a list share.
fn one(r: &mut Rng, style: Style, base: f64, limits: [f64; 2]) -> f64 {
    match style {
        Style::Unit => r.unit() * 4.0 + limits[0],
        Style::Whole => r.between(0, 5) as f64,
        Style::Equal => base,
        // differences around 1e-10
        Style::Near => base + r.pick(&[0.0, 0.0, 5e-11, 1e-10, 1.5e-10, 3e-10]),
        // neighbouring floats
        Style::Beside => f64::from_bits(base.to_bits() + r.below(4) as u64),
        Style::Signed => (r.unit() - 0.5) * 8.0,
        Style::Zeros => r.pick(&[0.0, -0.0, 0.0, 4.0]),
        Style::Ends => {
            let x = r.pick(&[
                limits[0],
                limits[1],
                0.0,
                limits[0].next_up(),
                limits[1].next_down(),
            ]);
            r.sign(x)
        }
        Style::Wide => {
            let x = (1.0 + r.unit()) * 2f64.powi(r.between(-600, 29) as i32);
            r.sign(x)
        }
    }
}

/// Frequencies, all of one style.
pub fn frequencies(r: &mut Rng, style: Style, count: usize) -> Vec<f64> {
    let base = r.pick(&[1.5, 1.0, 5.0, 2.0]) + r.unit();
    (0..count).map(|_| one(r, style, base, FREQUENCY)).collect()
}

/// Points: on, beside, between and outside values that matter, each within the limits.
pub fn points(r: &mut Rng, values: &[f64], count: usize) -> Vec<f64> {
    (0..count).map(|_| point(r, values)).collect()
}

fn point(r: &mut Rng, values: &[f64]) -> f64 {
    let (a, b) = (r.pick(values), r.pick(values));
    let x = match r.below(8) {
        0 => a,
        1 => a.next_up(),
        2 => a.next_down(),
        3 | 4 => a + (b - a) * r.unit(),
        5 => (a + b) / 2.0,
        6 => 2.0 * a + 1.0,
        _ => r.pick(&[0.0, -0.0, -1.0, POINT[0], -POINT[0], POINT[1], -POINT[1]]),
    };
    if fits(x, POINT) {
        x
    } else {
        0.0
    }
}
