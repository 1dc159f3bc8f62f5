//! Texts of studies, and the listings that the Rust's weights give.
use crate::calls::{self, ANSWER};
use crate::lent::{any, Lent};
use crate::report::{Kind, Seen};
use crate::rng::Rng;
use crate::studies::{self, study};
use crate::study::Study;
use crate::{asks, gridpoints::NOT_ZERO};
use phonors::tetrahedron_method::all_relative_grid_address;
use std::fmt::{Display, Write};

pub const KINDS: [Kind; 1] = [Kind::telling(
    "texts answered",
    &[1, 3, 4, 5, 6, 8, 9, 10, 11],
    NOT_ZERO,
)];

/// The greatest length of a text.
const LONGEST: usize = 16384;

fn line<T: Display>(text: &mut String, tag: &str, fields: impl IntoIterator<Item = T>) {
    text.push_str(tag);
    for f in fields {
        write!(text, "\t{f}").expect("a string");
    }
    text.push('\n');
}

fn digits(x: &f64) -> String {
    format!("{:016x}", x.to_bits())
}

/// The study with built-in table `diag` as document 01 writes it.
fn printed(s: &Study, diag: usize) -> String {
    let mut t = String::new();
    let [d0, d1, d2] = s.grid.mesh;
    line(&mut t, "grid", [s.grid.kind, d0, d1, d2]);
    line(&mut t, "diag", [diag]);
    line(&mut t, "type", [s.tp]);
    line(&mut t, "bands", s.bands);
    s.grid
        .addresses
        .chunks(3)
        .for_each(|a| line(&mut t, "addr", a));
    s.grid.map.iter().for_each(|v| line(&mut t, "map", [v]));
    s.f1.iter().for_each(|x| line(&mut t, "f1", [digits(x)]));
    s.f2.iter().for_each(|x| line(&mut t, "f2", [digits(x)]));
    s.points
        .iter()
        .for_each(|x| line(&mut t, "point", [digits(x)]));
    s.triplets
        .chunks(3)
        .for_each(|a| line(&mut t, "triplet", a));
    t
}

/// Points and both bands of a sound study.
fn counts(s: &Study) -> [usize; 3] {
    [s.points.len(), s.bands[0] as usize, s.bands[1] as usize]
}

/// The listing of weights and flags; of the counts those of points and of both bands.
pub fn listing(counts: [usize; 3], weights: &[f64], flags: &[i8]) -> String {
    let mut t = String::from("triplet\tpoint\tb1\tb2\tflag\tw\n");
    let [points, b1, b2] = counts;
    for (k, flag) in flags.iter().enumerate() {
        let triplet = k / (points * b1 * b2);
        let places = [triplet, k / (b1 * b2) % points, k / b2 % b1, k % b2];
        let [a, b, c, d] = places;
        write!(t, "{a}\t{b}\t{c}\t{d}").expect("a string");
        let own = weights.iter().skip(k).step_by(flags.len()).map(digits);
        line(&mut t, "", std::iter::once(flag.to_string()).chain(own));
    }
    t
}

/// A fault that makes any text ill formed.
fn spoiled(r: &mut Rng, t: &str) -> String {
    let n = r.below(t.len());
    let at = t[..n].rfind('\n').map_or(0, |k| k + 1);
    match r.below(10) {
        0 => t.replacen('\t', " ", 1),
        1 => t.replacen('\t', "\t\t", 1),
        2 => t.replacen("grid\t", "grid\t+", 1),
        3 => t.replacen("type\t", "type\t0", 1),
        4 => t.replacen("bands", "band", 1),
        5 => t.replace('\n', "\r\n"),
        6 => t[..t.len() - 1].to_string(),
        7 => format!("{}\n{}", &t[..at], &t[at..]),
        8 => format!("{t}{}", "triplet\t0\t0\t0\n".repeat(1 + LONGEST / 14)),
        _ => format!("{t}diag\t0\n"),
    }
}

/// A study that a text can hold: whole triples, and one built-in table.
fn drawn(r: &mut Rng) -> (Study, usize) {
    let mut s = study(r);
    // the table is built in, so question 7 says yes
    let faults = r.faults(studies::FAULTS.len());
    for k in faults.into_iter().filter(|k| *k != 4) {
        studies::FAULTS[k](r, &mut s);
    }
    s.grid.addresses.truncate(s.grid.addresses.len() / 3 * 3);
    s.triplets.truncate(s.triplets.len() / 3 * 3);
    let diag = r.below(4);
    s.table = all_relative_grid_address()[diag].concat().concat();
    (s, diag)
}

pub fn cases(r: &mut Rng, seen: &mut [Seen]) {
    let (s, diag) = drawn(r);
    let mut text = printed(&s, diag);
    let mut no = if text.len() > LONGEST {
        1
    } else {
        asks::text(&s)
    };
    if r.one_in(8) {
        text = spoiled(r, &text);
        no = 1;
    }
    let answer = if no == 0 {
        told(r, &s, &mut seen[0])
    } else {
        format!("refused\t{no}\n")
    };
    let mut want: Vec<u8> = any(r, ANSWER);
    let mut out = Lent::new(r, &want);
    let length = calls::answer(text.as_bytes(), out.lend());
    want[..answer.len()].copy_from_slice(answer.as_bytes());
    let right = length == answer.len() && out.holds(&want);
    seen[0].note(no, right, || {
        format!("{length} bytes for {}, {text:?}", answer.len())
    });
}

/// The Rust's listing.
fn told(r: &mut Rng, s: &Study, seen: &mut Seen) -> String {
    let cells = s.count() * s.per();
    let (mut weights, mut flags) = (any(r, s.channels() * cells), any(r, cells));
    if cells > 0 {
        s.rust(&mut weights, &mut flags);
    }
    seen.tell(weights.iter().any(|w| *w != 0.0));
    listing(counts(s), &weights, &flags)
}
