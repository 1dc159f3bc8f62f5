//! Weights and flags of one triplet and of all; normal triplets; copies of a table; channels of a type.
use crate::gridpoints::NOT_ZERO;
use crate::lent::{any, Lent, Word};
use crate::report::{Kind, Seen};
use crate::rng::Rng;
use crate::studies::{self, off_grid, other_length, spoil_table, spoiled_type, study, table};
use crate::study::{rows, triples, Study};
use crate::{asks, calls};
use phonors::triplet::{is_n, set_relative_grid_address};
use phonors::triplet_iw::{integration_weight_per_triplet, TpType};

const STUDY: &[u64] = &[3, 4, 5, 6, 7, 8, 9, 10, 11, 12];

pub const KINDS: [Kind; 5] = [
    Kind::telling("weights of all triplets", STUDY, NOT_ZERO),
    Kind::telling("weights of one triplet", STUDY, NOT_ZERO),
    Kind::telling("normal triplets", &[5, 10], "are normal"),
    Kind::new("copies of a table", &[7, 8, 12]),
    Kind::new("channels of a type", &[8]),
];

pub fn cases(r: &mut Rng, seen: &mut [Seen]) {
    all(r, &mut seen[0]);
    one(r, &mut seen[1]);
    normal(r, &mut seen[2]);
    copies(r, &mut seen[3]);
    channels(r, &mut seen[4]);
}

/// The greatest buffer that is made.
const MOST: usize = 1 << 18;

/// Lengths of weights and flags for so many triplets, one of them wrong where told.
pub fn lengths(r: &mut Rng, s: &Study, count: usize, wrong: bool) -> (usize, usize) {
    let cells = count * s.per();
    let (mut w, mut f) = ((s.channels() * cells).min(MOST), cells.min(MOST));
    if wrong {
        let which = if r.one_in(2) { &mut w } else { &mut f };
        *which = other_length(r, *which);
    }
    (w, f)
}

/// A study with no fault, one or two; whether question 12 is to say no.
fn drawn(r: &mut Rng) -> (Study, bool) {
    let mut s = study(r);
    let mut wrong = false;
    for k in r.faults(studies::FAULTS.len() + 1) {
        match studies::FAULTS.get(k) {
            Some(fault) => fault(r, &mut s),
            None => wrong = true,
        }
    }
    (s, wrong)
}

fn all(r: &mut Rng, seen: &mut Seen) {
    let (s, wrong) = drawn(r);
    let (w, f) = lengths(r, &s, s.count(), wrong);
    let no = asks::triplets(&s, w, f);
    let (mut weights, mut flags) = (any::<f64>(r, w), any::<i8>(r, f));
    let mut out = (Lent::new(r, &weights), Lent::new(r, &flags));
    let answer = calls::all_triplets(&s, out.0.lend(), out.1.lend());
    if no == 0 && s.count() > 0 {
        s.rust(&mut weights, &mut flags);
    }
    let right = answer == no && out.0.holds(&weights) && out.1.holds(&flags);
    seen.tell(no == 0 && weights.iter().any(|w| *w != 0.0));
    seen.note(no, right, || format!("{answer}, rooms {w} {f}, {s:?}"));
}

fn one(r: &mut Rng, seen: &mut Seen) {
    let (mut s, wrong) = drawn(r);
    // the call takes three numbers: those of the study's first triplet
    s.triplets.resize(3, 0);
    let triplet = triples(&s.triplets)[0];
    let (w, f) = lengths(r, &s, 1, wrong);
    let no = asks::triplets(&s, w, f);
    let (mut weights, mut flags) = (any::<f64>(r, w), any::<i8>(r, f));
    let mut out = (Lent::new(r, &weights), Lent::new(r, &flags));
    let answer = calls::one_triplet(&s, triplet, out.0.lend(), out.1.lend());
    if no == 0 {
        rust_one(&s, triplet, &mut weights, &mut flags);
    }
    let right = answer == no && out.0.holds(&weights) && out.1.holds(&flags);
    seen.tell(no == 0 && weights.iter().any(|w| *w != 0.0));
    seen.note(no, right, || format!("{answer}, rooms {w} {f}, {s:?}"));
}

/// The Rust's own function for one triplet.
fn rust_one(s: &Study, triplet: [i64; 3], weights: &mut [f64], flags: &mut [i8]) {
    let addresses = triples(&s.grid.addresses);
    let mut channels: Vec<&mut [f64]> = weights.chunks_mut(s.per()).collect();
    integration_weight_per_triplet(
        &mut channels,
        flags,
        &s.points,
        s.points.len() as i64,
        &set_relative_grid_address(&rows(&s.table), s.tp),
        triplet,
        &s.grid.view(&addresses),
        &s.f1,
        s.bands[0],
        &s.f2,
        s.bands[1],
        TpType::try_from_i64(s.tp).expect("a type"),
    )
    .expect("a kind of grid");
}

/// Addresses; the third is often made to fit the first two.
fn addresses(r: &mut Rng) -> Vec<i64> {
    let count = r.between(3, 8) as usize;
    let most = r.pick(&[1, 2, 2048, 4096]);
    let mut a: Vec<i64> = (0..3 * count).map(|_| r.between(-most, most)).collect();
    for k in 0..3 {
        let third = -a[k] - a[3 + k];
        if third.abs() <= 4096 && !r.one_in(8) {
            a[6 + k] = third;
        }
    }
    a
}

fn spoil_addresses(r: &mut Rng, a: &mut Vec<i64>) {
    match r.below(4) {
        0 => drop(a.pop()),
        1 => a.push(0),
        _ => {
            if !a.is_empty() {
                let k = r.below(a.len());
                a[k] = r.pick(&[4097, -4097, i64::MAX, i64::MIN]);
            }
        }
    }
}

fn normal(r: &mut Rng, seen: &mut Seen) {
    let mut a = addresses(r);
    let mut triplet = [0, 1, 2];
    r.shuffle(&mut triplet);
    if r.one_in(3) {
        triplet = triplet.map(|_| r.below(a.len() / 3) as i64);
    }
    for k in r.faults(3) {
        match k {
            0 => spoil_addresses(r, &mut a),
            1 => triplet[r.below(3)] = off_grid(r, a.len() as i64 / 3),
            _ => a.clear(),
        }
    }
    let no = asks::normal(triplet, &a);
    let before = u8::any(r);
    let want = if no == 0 {
        is_n(triplet, &triples(&a)) as u8
    } else {
        before
    };
    let mut got = before;
    let answer = calls::normal(triplet, &a, &mut got);
    let right = answer == no && got == want;
    seen.tell(no == 0 && want == 1);
    seen.note(no, right, || {
        format!("{answer}, {got} for {want}: {triplet:?} of {a:?}")
    });
}

fn copies(r: &mut Rng, seen: &mut Seen) {
    let mut t = table(r);
    let mut tp = r.between(2, 4);
    let mut wrong = false;
    for k in r.faults(3) {
        match k {
            0 => spoil_table(r, &mut t),
            1 => tp = spoiled_type(r),
            _ => wrong = true,
        }
    }
    let room = if wrong {
        other_length(r, 2 * t.len())
    } else {
        2 * t.len()
    };
    let no = asks::copies(&t, tp, room);
    let mut want: Vec<i64> = any(r, room);
    let mut out = Lent::new(r, &want);
    let answer = calls::copies(out.lend(), &t, tp);
    if no == 0 {
        want = set_relative_grid_address(&rows(&t), tp)
            .concat()
            .concat()
            .concat();
    }
    let right = answer == no && out.holds(&want);
    seen.note(no, right, || {
        format!("{answer}, type {tp}, room {room}, {t:?}")
    });
}

fn channels(r: &mut Rng, seen: &mut Seen) {
    let tp = if r.one_in(2) {
        r.between(2, 4)
    } else {
        spoiled_type(r)
    };
    let no = asks::channels(tp);
    let before = usize::any(r);
    // the Rust has this question itself
    let rust = TpType::try_from_i64(tp).ok().map(TpType::num_channels);
    let mut got = before;
    let answer = calls::channels(tp, &mut got);
    let right = answer == no && rust.is_some() == (no == 0) && got == rust.unwrap_or(before);
    seen.note(no, right, || {
        format!("{answer}, {got} for {rust:?} of type {tp}")
    });
}
