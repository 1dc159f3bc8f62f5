//! Listings read back (request 5). What the Rust computed and the listing tells must come back by its bits. The original has no reader, so
//! which texts are listings is judged by the one below: it takes the words of document 01 and of the request line by line, field by field.
use crate::answers::listing;
use crate::asks::{self, CHANNELS};
use crate::calls;
use crate::gridpoints::NOT_ZERO;
use crate::lent::{any, Lent, Word};
use crate::listing_faults::{damage, spoil, Call};
use crate::report::{Kind, Seen};
use crate::rng::Rng;
use crate::studies::study;
use std::cell::OnceCell;

pub const KINDS: [Kind; 3] = [
    Kind::telling("listings of studies", &[8, 9, 12], NOT_ZERO),
    Kind::telling("listings of any weights", &[8, 9, 12], "have a NaN"),
    Kind::telling("damaged listings", &[8, 9, 12, 22], "give another record"),
];

/// The NaN that is printed, whichever the weight is.
pub const NAN: u64 = 0x7ff8_0000_0000_0000;

/// Weights and flags, their type and the counts of triplets, points, both bands.
struct Record {
    tp: i64,
    counts: [i64; 4],
    weights: Vec<f64>,
    flags: Vec<i8>,
}

impl Record {
    fn printed(&self) -> Vec<u8> {
        let printable = |w: &f64| f64::from_bits(if w.is_nan() { NAN } else { w.to_bits() });
        let weights: Vec<f64> = self.weights.iter().map(printable).collect();
        let [_, points, b1, b2] = self.counts.map(|n| n as usize);
        listing([points, b1, b2], &weights, &self.flags).into_bytes()
    }
}

// ---- the reader

pub const HEADER: &[u8] = b"triplet\tpoint\tb1\tb2\tflag\tw";

/// A whole number from 0 on: digits alone, no 0 before another.
fn decimal(field: &[u8]) -> Option<i64> {
    let digits = !field.is_empty() && field.iter().all(u8::is_ascii_digit);
    let padded = field.len() > 1 && field[0] == b'0';
    if !digits || padded {
        return None;
    }
    std::str::from_utf8(field).ok()?.parse().ok()
}

fn flag(field: &[u8]) -> Option<i8> {
    match field {
        b"0" => Some(0),
        b"1" => Some(1),
        _ => None,
    }
}

/// Sixteen small hexadecimal digits; of the NaNs there is one.
fn weight(field: &[u8]) -> Option<f64> {
    let digit = |b: &u8| match b {
        b'0'..=b'9' => Some(u64::from(b - b'0')),
        b'a'..=b'f' => Some(u64::from(b - b'a') + 10),
        _ => None,
    };
    let digits: Vec<u64> = field.iter().map(digit).collect::<Option<_>>()?;
    if digits.len() != 16 {
        return None;
    }
    let bits = digits.iter().fold(0, |n, d| n << 4 | d);
    let weight = f64::from_bits(bits);
    (!weight.is_nan() || bits == NAN).then_some(weight)
}

/// The place of the entry after one: the second band rises first, then the first band, the point, the triplet.
fn after(mut place: [i64; 4], counts: [i64; 4]) -> [i64; 4] {
    for k in [3, 2, 1] {
        place[k] += 1;
        if place[k] < counts[k] {
            return place;
        }
        place[k] = 0;
    }
    place[0] += 1;
    place
}

/// Weights, one channel after the other, and flags, where header, lines, field forms and order are those of the writer.
fn read(text: &[u8], tp: i64, counts: [i64; 4]) -> Option<(Vec<f64>, Vec<i8>)> {
    let mut lines: Vec<&[u8]> = text.split(|b| *b == b'\n').collect();
    // each line is ended, so nothing stands behind the last newline
    let rest = lines.pop()?;
    let (header, entries) = lines.split_first()?;
    if !rest.is_empty() || *header != HEADER {
        return None;
    }
    let mut channels = vec![vec![]; CHANNELS[tp as usize] as usize];
    let (mut flags, mut place) = (vec![], [0; 4]);
    for line in entries {
        let fields: Vec<&[u8]> = line.split(|b| *b == b'\t').collect();
        let (front, own) = fields.split_at_checked(5)?;
        let numbers: Vec<i64> = front[..4]
            .iter()
            .map(|f| decimal(f))
            .collect::<Option<_>>()?;
        if numbers != place || own.len() != channels.len() {
            return None;
        }
        flags.push(flag(front[4])?);
        for (channel, field) in channels.iter_mut().zip(own) {
            channel.push(weight(field)?);
        }
        place = after(place, counts);
    }
    (place == [counts[0], 0, 0, 0]).then(|| (channels.concat(), flags))
}

// ---- records

/// The Rust's weights and flags of a study; now and then more than a study's text may ask for.
fn of_study(r: &mut Rng) -> Record {
    let mut s = study(r);
    let (each, p) = (s.per(), s.grid.count());
    if r.one_in(200) && each < 1000 {
        let many = r.between(6000, 12000) as usize / each;
        s.triplets = (0..3 * many).map(|_| r.below(p) as i64).collect();
    }
    let cells = s.count() * each;
    let (mut weights, mut flags) = (any(r, s.channels() * cells), any(r, cells));
    if cells > 0 {
        s.rust(&mut weights, &mut flags);
    }
    let [b1, b2] = s.bands;
    Record {
        tp: s.tp,
        counts: [s.count() as i64, s.points.len() as i64, b1, b2],
        weights,
        flags,
    }
}

const LARGE: [[i64; 4]; 5] = [
    [65536, 1, 1, 1],
    [1, 1024, 64, 1],
    [1, 1024, 1, 64],
    [16, 1, 64, 64],
    [65537, 1, 1, 1],
];
const LIMITS: [[i64; 4]; 4] = [
    [0, 1024, 64, 64],
    [1, 1024, 1, 1],
    [1, 1, 64, 1],
    [1, 1, 1, 64],
];
const BEYOND: [[i64; 4]; 7] = [
    [0, 1025, 1, 1],
    [1, 1025, 1, 1],
    [1, 1, 65, 1],
    [1, 1, 1, 65],
    [1, 0, 1, 1],
    [1, 1, 0, 1],
    [1, 1, 1, 0],
];

/// Counts mostly few, some of more than one digit; now and then the most, or such as question 9 turns down though a listing could be printed.
fn some_counts(r: &mut Rng) -> [i64; 4] {
    let mut counts = [
        r.pick(&[0, 1, 1, 2, 2, 3]),
        r.between(1, 3),
        r.between(1, 3),
        r.between(1, 3),
    ];
    match r.below(1000) {
        0 => counts = r.pick(&LARGE),
        1..=15 => counts = r.pick(&LIMITS),
        16..=30 => counts = r.pick(&BEYOND),
        31..=45 => counts[r.below(2)] = r.between(98, 102),
        46..=150 => counts[r.below(4)] = r.between(9, 12),
        _ => {}
    }
    counts
}

/// Any weights, zeros of either sign and subnormal ones often among them, and any flags that a listing can tell.
fn of_any(r: &mut Rng) -> Record {
    let (tp, counts) = (r.between(2, 4), some_counts(r));
    let cells = counts.iter().product::<i64>() as usize;
    let outputs = CHANNELS[tp as usize] as usize;
    let content = |r: &mut Rng| match r.below(6) {
        0 => f64::from_bits(r.next() << 63),
        1 => f64::from_bits(r.next() >> 12 | r.next() << 63),
        _ => f64::any(r),
    };
    Record {
        tp,
        counts,
        weights: (0..outputs * cells).map(|_| content(r)).collect(),
        flags: (0..cells).map(|_| r.below(2) as i8).collect(),
    }
}

// ---- cases

/// The weights that are right, a NaN among them as it came back: a quiet one without payload, of either sign.
fn as_came(right: &[f64], came: &[f64]) -> Vec<f64> {
    let plain = |w: &f64| w.to_bits() << 1 == NAN << 1;
    let each = right.iter().zip(came);
    each.map(|(w, c)| if w.is_nan() && plain(c) { *c } else { *w })
        .collect()
}

/// A call with the listing of a record, or what became of it; the number of its refusal.
fn judged(r: &mut Rng, whole: &[u8], record: &Record, c: &Call, seen: &mut Seen) -> u64 {
    let restored = OnceCell::new();
    let printed = || {
        restored
            .get_or_init(|| read(&c.text, c.tp, c.counts))
            .is_some()
    };
    let no = asks::read_listing(c.tp, c.counts, c.rooms, &printed);
    let before: (Vec<f64>, Vec<i8>) = (any(r, c.rooms[0]), any(r, c.rooms[1]));
    let mut weights = Lent::new(r, &before.0);
    let mut flags = Lent::new(r, &before.1);
    // what a listing has lost at its end lies behind it
    let behind = whole.get(c.text.len()..).unwrap_or(&[]);
    let all = [c.text.as_slice(), behind].concat();
    let mut text = Lent::new(r, &all);
    let given = &text.lend()[..c.text.len()];
    let answer = calls::read_listing(given, c.tp, c.counts, weights.lend(), flags.lend());
    let (right_weights, right_flags) = match restored.get() {
        _ if no != 0 => before,
        _ if c.text == whole => {
            let right = as_came(&record.weights, weights.lend());
            (right, record.flags.clone())
        }
        Some(Some((w, f))) => (as_came(w, weights.lend()), f.clone()),
        _ => unreachable!("22 is asked last"),
    };
    let right = answer == no
        && weights.holds(&right_weights)
        && flags.holds(&right_flags)
        && text.holds(&all);
    seen.note(no, right, || {
        format!(
            "{answer}, type {}, {:?}, rooms {:?}, {}",
            c.tp,
            c.counts,
            c.rooms,
            c.text.escape_ascii()
        )
    });
    no
}

fn call(record: &Record, whole: &[u8]) -> Call {
    Call {
        text: whole.to_vec(),
        tp: record.tp,
        counts: record.counts,
        rooms: [record.weights.len(), record.flags.len()],
    }
}

pub fn cases(r: &mut Rng, seen: &mut [Seen]) {
    let tells: [fn(&Record) -> bool; 2] = [
        |x| x.weights.iter().any(|w| *w != 0.0),
        |x| x.weights.iter().any(|w| w.is_nan()),
    ];
    for (k, tells) in tells.into_iter().enumerate() {
        let record = if k == 0 { of_study(r) } else { of_any(r) };
        let whole = record.printed();
        let mut c = call(&record, &whole);
        let faults = r.faults(3);
        spoil(r, &faults, &mut c);
        let no = judged(r, &whole, &record, &c, &mut seen[k]);
        seen[k].tell(no == 0 && tells(&record));
    }
    for _ in 0..4 {
        damaged(r, &mut seen[2]);
    }
}

fn damaged(r: &mut Rng, seen: &mut Seen) {
    let record = if r.one_in(5) { of_study(r) } else { of_any(r) };
    let whole = record.printed();
    let mut c = call(&record, &whole);
    damage(r, &mut c);
    if r.one_in(4) {
        let faults = r.faults(3);
        spoil(r, &faults, &mut c);
    }
    let no = judged(r, &whole, &record, &c, seen);
    seen.tell(no == 0 && c.text != whole);
}
