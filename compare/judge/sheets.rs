//! Single calls on run sheets, the Rust's weights as the content that is right; the counts of the workers; the open count of request 4.
use crate::averages::{flag, ids, spoil_ids, spoiled_weight, weight};
use crate::calls::Parts;
use crate::lent::{any, same, Lent, Word};
use crate::report::{Kind, Seen};
use crate::rng::{Rng, FAR};
use crate::studies::{self, other_length, spoiled_count, spoiled_type, study};
use crate::study::{Sheet, Study};
use crate::triplets::lengths;
use crate::{asks, calls};

const RUN: &[u64] = &[3, 4, 5, 6, 7, 8, 9, 10, 11, 12, 13, 14, 15, 20, 21];
const CARRY: &[u64] = &[3, 4, 5, 6, 7, 8, 9, 10, 11, 12, 13, 20, 21];
const AVERAGE: &[u64] = &[3, 4, 5, 6, 7, 8, 9, 10, 11, 12, 13, 14, 15, 16, 17, 18, 19];
const OPEN: &[u64] = &[8, 9, 12, 14];

pub const KINDS: [Kind; 5] = [
    Kind::telling("run a piece", RUN, "change a weight"),
    Kind::telling("carry on", CARRY, "change a weight"),
    Kind::telling("average a triplet", AVERAGE, "change a weight"),
    Kind::new("tally", &[20, 21]),
    Kind::telling("open count", OPEN, "have open entries and closed ones"),
];

pub fn cases(r: &mut Rng, seen: &mut [Seen]) {
    run(r, &mut seen[0]);
    carry(r, &mut seen[1]);
    average(r, &mut seen[2]);
    tally(r, &mut seen[3]);
    open(r, &mut seen[4]);
}

/// A sheet for a study, its content of any kind.
fn sheet(r: &mut Rng, s: &Study, wrong_length: bool) -> Sheet {
    let (w, f) = lengths(r, s, s.count(), false);
    let mut sheet = Sheet {
        weights: any(r, w),
        flags: any(r, f),
        marks: marks(r, s),
        tally: counts(r),
    };
    if wrong_length {
        match r.below(3) {
            0 => sheet.weights.resize(other_length(r, w), 0.0),
            1 => sheet.flags.resize(other_length(r, f), 0),
            _ => sheet.marks.resize(other_length(r, sheet.marks.len()), 0),
        }
    }
    sheet
}

/// Marks of each triplet: all averaged, all computed, or some computed.
fn marks(r: &mut Rng, s: &Study) -> Vec<u8> {
    let pieces = s.pairs().min(1 << 12);
    (0..s.count().min(1 << 16))
        .flat_map(|_| {
            let style = r.below(4);
            (0..pieces)
                .map(|_| {
                    if style < 3 {
                        style as u8
                    } else {
                        r.below(2) as u8
                    }
                })
                .collect::<Vec<u8>>()
        })
        .collect()
}

/// A worker's count, often just below the limit or beyond it.
fn counted(r: &mut Rng) -> u64 {
    match r.below(10) {
        0 => (1 << 63) - r.between(0, 4) as u64,
        1 => r.pick(&[u64::MAX, 1 << 63, (1 << 63) + 1]),
        _ => r.next() >> r.between(2, 63),
    }
}

fn counts(r: &mut Rng) -> [u64; 16] {
    std::array::from_fn(|_| counted(r))
}

/// Next to the range, what fewer bits take for a worker, or any number.
fn no_worker(r: &mut Rng) -> i64 {
    let far = [FAR[0], FAR[1], 1 << 32, (1 << 32) + r.between(0, 15)];
    match r.below(4) {
        0 => r.pick(&[-1, 16, 17, 256]),
        1 => 1 << r.between(4, 62) | r.between(0, 15),
        2 => r.pick(&far),
        _ => r.next() as i64,
    }
}

fn worker(r: &mut Rng, fault: bool) -> i64 {
    if fault {
        no_worker(r)
    } else {
        r.between(0, 15)
    }
}

fn spoil_marks(r: &mut Rng, m: &mut [u8]) {
    if !m.is_empty() {
        m[r.below(m.len())] = r.pick(&[2, 2, 3, 4, 255, 130]);
    }
}

/// The faults of a study and its sheet that every call can meet: questions 3 to 13.
fn drawn(r: &mut Rng, faults: &[usize], s: &mut Study) -> Sheet {
    let own = studies::FAULTS.len();
    for k in faults.iter().filter(|k| **k < own) {
        studies::FAULTS[*k](r, s);
    }
    let mut sheet = sheet(r, s, faults.contains(&own));
    if faults.contains(&(own + 1)) {
        spoil_marks(r, &mut sheet.marks);
    }
    sheet
}

const COMMON: usize = studies::FAULTS.len() + 2;

/// A study for a sheet: never so many triplets that one call takes long.
fn sheet_study(r: &mut Rng) -> Study {
    let mut s = study(r);
    s.triplets.truncate(9);
    s
}

fn asked(sheet: &Sheet) -> asks::Sheet<'_> {
    asks::Sheet {
        weights: &sheet.weights,
        flags: sheet.flags.len(),
        marks: &sheet.marks,
        tally: &sheet.tally,
    }
}

/// The counts as a call takes them.
fn sixteen(counts: &mut [u64]) -> &mut [u64; 16] {
    counts.try_into().expect("sixteen counts")
}

/// Makes a call on a copy of a sheet; whether the answer is the number and the copy then holds what the sheet should.
fn agrees(
    r: &mut Rng,
    before: &Sheet,
    want: &Sheet,
    no: u64,
    call: impl FnOnce(Parts) -> u64,
) -> bool {
    let mut weights = Lent::new(r, &before.weights);
    let mut flags = Lent::new(r, &before.flags);
    let mut marks = Lent::new(r, &before.marks);
    let mut tally = Lent::new(r, &before.tally);
    let parts = Parts {
        weights: weights.lend(),
        flags: flags.lend(),
        marks: marks.lend(),
        tally: sixteen(tally.lend()),
    };
    call(parts) == no
        && weights.holds(&want.weights)
        && flags.holds(&want.flags)
        && marks.holds(&want.marks)
        && tally.holds(&want.tally)
}

/// The sheet with the Rust's entries of some pieces, marked 1 and counted for a worker.
fn computed(s: &Study, before: &Sheet, worker: i64, piece: impl Fn(usize) -> bool) -> Sheet {
    let mut after = before.clone();
    let (mut w, mut f) = (before.weights.clone(), before.flags.clone());
    if s.count() > 0 {
        s.rust(&mut w, &mut f);
    }
    let (pairs, cells) = (s.pairs(), f.len());
    let of_piece = |k: usize| piece(k / s.per() * pairs + k % pairs);
    for k in (0..cells).filter(|k| of_piece(*k)) {
        after.flags[k] = f[k];
        for c in 0..s.channels() {
            after.weights[c * cells + k] = w[c * cells + k];
        }
    }
    for k in (0..after.marks.len()).filter(|k| piece(*k)) {
        after.marks[k] = 1;
        after.tally[asks::place(worker)] += 1;
    }
    after
}

/// A number from 0 on, often one that is on the sheet.
fn named(r: &mut Rng, count: i64) -> i64 {
    r.between(0, (count - 1).clamp(0, 100))
}

fn unnamed(r: &mut Rng, count: i64) -> i64 {
    r.pick(&[-1, count, count.wrapping_add(1), FAR[0], FAR[1]])
}

fn run(r: &mut Rng, seen: &mut Seen) {
    let mut s = sheet_study(r);
    let faults = r.faults(COMMON + 3);
    let mut sheet = drawn(r, &faults, &mut s);
    let counts = [s.count() as i64, s.bands[0], s.bands[1]];
    let mut piece = counts.map(|n| named(r, n));
    if faults.contains(&COMMON) {
        let k = r.below(3);
        piece[k] = unnamed(r, counts[k]);
    }
    let worker = worker(r, faults.contains(&(COMMON + 1)));
    if faults.contains(&(COMMON + 2)) {
        sheet.tally[asks::place(worker)] = (1 << 63) - r.between(0, 2) as u64;
    }
    let no = asks::run_piece(&s, &asked(&sheet), worker, piece);
    let [t, b1, b2] = piece;
    let at = |k: usize| k as i64 == (t * s.bands[0] + b1) * s.bands[1] + b2;
    let want = if no == 0 {
        computed(&s, &sheet, worker, at)
    } else {
        sheet.clone()
    };
    seen.tell(no == 0 && !same(&sheet.weights, &want.weights));
    let right = agrees(r, &sheet, &want, no, |parts| {
        calls::run_piece(&s, parts, worker, piece)
    });
    seen.note(no, right, || {
        format!("worker {worker}, piece {piece:?}, {sheet:?}, {s:?}")
    });
}

fn carry(r: &mut Rng, seen: &mut Seen) {
    let mut s = sheet_study(r);
    let faults = r.faults(COMMON + 2);
    let mut sheet = drawn(r, &faults, &mut s);
    let worker = worker(r, faults.contains(&COMMON));
    if faults.contains(&(COMMON + 1)) {
        let open = sheet.marks.iter().filter(|m| **m == 0).count() as u64;
        let count = ((1 << 63) - open).saturating_add_signed(r.between(-2, 2));
        sheet.tally[asks::place(worker)] = count;
    }
    let no = asks::carry_on(&s, &asked(&sheet), worker);
    let open = |k: usize| sheet.marks[k] == 0;
    let want = if no == 0 {
        computed(&s, &sheet, worker, open)
    } else {
        sheet.clone()
    };
    seen.tell(no == 0 && !same(&sheet.weights, &want.weights));
    let right = agrees(r, &sheet, &want, no, |parts| {
        calls::carry_on(&s, parts, worker)
    });
    seen.note(no, right, || format!("worker {worker}, {sheet:?}, {s:?}"));
}

/// A sheet on which most triplets can be averaged.
fn averageable(r: &mut Rng, s: &Study, sheet: &mut Sheet) {
    for w in &mut sheet.weights {
        *w = weight(r);
    }
    for f in &mut sheet.flags {
        *f = flag(r);
    }
    for m in sheet.marks.chunks_mut(s.pairs().max(1)) {
        if r.below(4) > 0 && m.iter().all(|x| *x <= 1) {
            m.fill(1);
        }
    }
}

fn average(r: &mut Rng, seen: &mut Seen) {
    let mut s = sheet_study(r);
    let faults = r.faults(COMMON + 4);
    if s.bands[0] != s.bands[1] && !faults.contains(&COMMON) {
        equal_bands(&mut s);
    }
    let mut sheet = drawn(r, &faults, &mut s);
    averageable(r, &s, &mut sheet);
    let mut t = named(r, s.count() as i64);
    let bands = s.bands[0].clamp(0, 64) as usize;
    let mut lists = [ids(r, bands), ids(r, bands)];
    if faults.contains(&(COMMON + 1)) {
        t = unnamed(r, s.count() as i64);
    }
    if faults.contains(&(COMMON + 2)) {
        spoil_ids(r, &mut lists);
    }
    if faults.contains(&(COMMON + 3)) && !sheet.weights.is_empty() {
        let k = r.below(sheet.weights.len());
        sheet.weights[k] = spoiled_weight(r);
    }
    let lists = [lists[0].as_slice(), lists[1].as_slice()];
    let no = asks::average_triplet(&s, &asked(&sheet), t, lists);
    let mut want = sheet.clone();
    if no == 0 {
        want.rust_average(&s, t as usize, lists);
        want.marks[t as usize * s.pairs()..][..s.pairs()].fill(2);
    }
    let call = |parts: Parts| calls::average_triplet(&s, parts, t, lists);
    seen.tell(no == 0 && !same(&sheet.weights, &want.weights));
    let right = agrees(r, &sheet, &want, no, call);
    seen.note(no, right, || {
        format!("triplet {t}, ids {lists:?}, {sheet:?}, {s:?}")
    });
}

/// The same study with the first band count on both sides.
fn equal_bands(s: &mut Study) {
    s.bands[1] = s.bands[0];
    s.f2 = s.f1.clone();
}

fn tally(r: &mut Rng, seen: &mut Seen) {
    let before = counts(r);
    let fault = r.one_in(6);
    let worker = worker(r, fault);
    let room = (1u64 << 63).saturating_sub(before[asks::place(worker)]);
    let runs = match r.below(4) {
        0 => room.saturating_add_signed(r.between(-2, 1)),
        1 => r.pick(&[0, 1, u64::MAX, 1 << 63]),
        _ => r.next() >> r.between(0, 63),
    };
    let no = asks::tally(&before, worker, runs);
    let mut want = before;
    if no == 0 {
        want[asks::place(worker)] += runs;
    }
    let mut got = Lent::new(r, &before);
    let answer = calls::tally_add(sixteen(got.lend()), worker, runs);
    let right = answer == no && got.holds(&want);
    seen.note(no, right, || {
        format!("{answer}, worker {worker}, {before:?} and {runs}")
    });
}

/// A call for an open count; counts: triplets, points, both bands.
struct OpenCall {
    tp: i64,
    counts: [i64; 4],
    triplet: i64,
}

pub const MOST: [i64; 4] = [65536, 1024, 64, 64];
/// No right sheet of a case has more weights.
const ROOM: i64 = 3 << 16;

/// Counts mostly few, now and then more than a byte counts, or the most.
fn open_call(r: &mut Rng) -> OpenCall {
    let counts = match r.below(100) {
        0 => r.pick(&[
            [65536, 1, 1, 1],
            [1, 1024, 64, 1],
            [1, 1024, 1, 64],
            [16, 1, 64, 64],
            [0, 1024, 64, 64],
        ]),
        1..=3 => [r.between(1, 2), r.between(20, 40), 4, 4],
        _ => [
            r.pick(&[0, 1, 1, 2, 2, 3, 3, 4]),
            r.between(1, 4),
            r.between(1, 3),
            r.between(1, 3),
        ],
    };
    OpenCall {
        tp: r.between(2, 4),
        counts,
        triplet: r.between(0, (counts[0] - 1).max(0)),
    }
}

/// One count that is none; or two, whose product can be 0 or the right one in 64 bits.
pub fn spoil_counts(r: &mut Rng, counts: &mut [i64; 4]) {
    let k = r.below(4);
    let other = (k + 1 + r.below(3)) % 4;
    match r.below(5) {
        0 => [k, other].iter().for_each(|k| counts[*k] = 1 << 32),
        1 => [k, other]
            .iter()
            .for_each(|k| counts[*k] = counts[*k].wrapping_neg()),
        _ if k == 0 => counts[0] = r.pick(&[-1, 65537, FAR[0], FAR[1]]),
        _ => counts[k] = spoiled_count(r, MOST[k]),
    }
}

/// The length of so many outputs, as numbers of 64 bits have it; a short one where that is no length or too long.
pub fn length(outputs: i64, counts: &[i64; 4]) -> usize {
    let product = counts.iter().fold(outputs, |n, c| n.wrapping_mul(*c));
    if (0..=ROOM).contains(&product) {
        product as usize
    } else {
        (outputs * counts[3].clamp(0, 64)) as usize
    }
}

/// A zero of either sign; one in `odds` is something else, of either sign too.
fn stored(r: &mut Rng, odds: usize) -> f64 {
    let magnitude = match r.below(6 * odds) {
        // NaNs with payloads, quiet and signalling
        0 => 0x7ff0_0000_0000_0001 | r.next() >> 12,
        1 => f64::INFINITY.to_bits(),
        // below the least normal number
        2 => 1 << r.below(52),
        3 => r.pick(&[1, f64::MIN_POSITIVE.to_bits(), f64::MAX.to_bits()]),
        4 => r.next() >> 1,
        5 => (r.unit() + 1e-3).to_bits(),
        _ => 0,
    };
    f64::from_bits(magnitude | r.next() << 63)
}

/// The weights of a sheet, one output after another, each with its own part of zeros.
fn stored_weights(r: &mut Rng, outputs: usize, length: usize) -> Vec<f64> {
    let odds: Vec<usize> = (0..outputs)
        .map(|_| r.pick(&[1, 2, 4, 8, 30, 1000]))
        .collect();
    let each = length.div_ceil(outputs).max(1);
    (0..length).map(|k| stored(r, odds[k / each])).collect()
}

fn open(r: &mut Rng, seen: &mut Seen) {
    let mut c = open_call(r);
    let outputs = asks::CHANNELS[c.tp as usize];
    let mut wrong = false;
    for k in r.faults(4) {
        match k {
            0 => c.tp = spoiled_type(r),
            1 => spoil_counts(r, &mut c.counts),
            2 => wrong = true,
            _ if r.one_in(4) => c.triplet = c.triplet.wrapping_add(1 << 32),
            _ => c.triplet = unnamed(r, c.counts[0]),
        }
    }
    let mut long = length(outputs, &c.counts);
    if wrong {
        // that of another type, or any other
        let other = length(outputs % 3 + 1, &c.counts);
        long = if r.one_in(3) && other != long {
            other
        } else {
            other_length(r, long)
        };
    }
    let weights = stored_weights(r, outputs as usize, long);
    let (tp, counts, triplet) = (c.tp, c.counts, c.triplet);
    let no = asks::open_count(tp, counts, long, triplet);
    let before = u64::any(r);
    let mut want = before;
    if no == 0 {
        want = open_entries(outputs as usize, counts, &weights, triplet);
        let [_, points, b1, b2] = counts;
        seen.tell(want > 0 && want < (points * b1 * b2) as u64);
    }
    let (mut lent, mut count) = (Lent::new(r, &weights), Lent::new(r, &[before]));
    let behind = &mut count.lend()[0];
    let answer = calls::open_count(tp, counts, lent.lend(), triplet, behind);
    let got = *behind;
    let right = answer == no && count.holds(&[want]) && lent.holds(&weights);
    seen.note(no, right, || {
        format!("{answer}, {got} for {want}, type {tp}, {counts:?}, {triplet}, {weights:?}")
    });
}

/// The entries of a triplet with a weight other than zero, in whichever outputs; weights lie by output, triplet, entry.
fn open_entries(outputs: usize, counts: [i64; 4], weights: &[f64], t: i64) -> u64 {
    let [all, points, b1, b2] = counts.map(|n| n as usize);
    let (each, t) = (points * b1 * b2, t as usize);
    let mut open = 0;
    for k in 0..each {
        let some = (0..outputs).filter(|o| weights[(o * all + t) * each + k] != 0.0);
        open += some.count().min(1) as u64;
    }
    open
}
