//! The proved run sheet against the original Rust on the load of request 13, and on larger and smaller ones.
//!
//!     compare               checksums and differences on request 13's load, and on the weights below; the status is 1 where one is wrong
//!     time ROUNDS LOAD      milliseconds of each call, all in turn, medians of the rounds
//!     work CALL LOAD        one call (`work` below has their names), or none, after what is made before it
//!     listing ROUNDS LOAD   bytes of the sheet's listing, and milliseconds to read it back, the median of the rounds
//!     weights COUNT ROUNDS  nanoseconds of one weight over 24 rows, the variants in turn, medians of the rounds
//!     weight VARIANT COUNT  so many weights of one variant
//!     checks COUNT ROUNDS   microseconds of one check of a customer's table, the median of the rounds
//!     check COUNT           so many checks
//!
//! LOAD is four numbers: triplets, bands, points, and how many points are drawn; the rest of the points repeat these. A fifth is the mesh,
//! 12 without it.
#[path = "../compare/judge/calls.rs"]
#[allow(dead_code)]
mod calls;
mod check;
mod clock;
mod listing;
#[path = "../compare/judge/kernels.rs"]
mod kernels;
mod load;
#[path = "../compare/judge/study.rs"]
#[allow(dead_code)]
mod study;
mod weight;

use clock::{clock, median};
use load::{
    all_triplets, average, carry_on, list, open_count, plain_open_count, questions, run_piece,
    rust, rust_average, Load,
};
use study::Sheet;

const WEIGHTS: u64 = 0x90a6e85c66921dec;
const FLAGS: u64 = 0x13bd95f65979a301;

fn fnv(bytes: impl Iterator<Item = u8>) -> u64 {
    bytes.fold(0xcbf29ce484222325, |h: u64, b| {
        (h ^ b as u64).wrapping_mul(0x100000001b3)
    })
}

/// FNV-1a over the bytes of the weights, and over the flags.
fn sums(s: &Sheet) -> (u64, u64) {
    let weights = s.weights.iter().flat_map(|x| x.to_bits().to_le_bytes());
    (fnv(weights), fnv(s.flags.iter().map(|x| *x as u8)))
}

/// How many weights and flags differ in any bit.
fn differences(a: &Sheet, b: &Sheet) -> (usize, usize) {
    assert!(a.weights.len() == b.weights.len() && a.flags.len() == b.flags.len());
    let weights = a.weights.iter().zip(&b.weights);
    (
        weights.filter(|(x, y)| x.to_bits() != y.to_bits()).count(),
        a.flags.iter().zip(&b.flags).filter(|(x, y)| x != y).count(),
    )
}

fn named_runs(l: &Load) -> Sheet {
    let mut s = l.sheet();
    for k in 0..3600 {
        run_piece(l, &mut s, k % 16, [k / 36, k / 6 % 6, k % 6]);
    }
    s
}

/// Whether a side has request 13's checksums, and of ours the Rust's bits.
fn side(name: &str, rust: &Sheet, s: &Sheet) -> bool {
    let (w, f) = sums(s);
    let (dw, df) = differences(rust, s);
    println!("{name:<12} weights {w:016x} flags {f:016x}, {dw} and {df} differ");
    w == WEIGHTS && f == FLAGS && dw + df == 0
}

/// The counts of a carry-on that ran all 3,600 pieces; in the named runs each worker has a sixteenth of them.
fn carried() -> [u64; 16] {
    std::array::from_fn(|w| if w == load::CARRIER { 3600 } else { 0 })
}

fn marked(s: &Sheet, tally: [u64; 16], mark: u8) -> bool {
    s.tally == tally && s.marks.iter().all(|m| *m == mark)
}

fn compare() -> bool {
    let l = Load::new(12, 100, 6, 10, 10);
    let (drawn, other) = l.drawn();
    println!("the load     of {drawn} frequencies and points {other} differ from the plain chain");
    let [mut a, mut b, mut c, mut e] = [0; 4].map(|_| l.sheet());
    rust(&l, &mut a);
    carry_on(&l, &mut b);
    all_triplets(&l, &mut c);
    let d = named_runs(&l);
    list(&l, &mut e);
    let mut good = other == 0;
    good &= side("the Rust", &a, &a);
    good &= side("carry-on", &a, &b) && marked(&b, carried(), 1);
    good &= side("named runs", &a, &d) && marked(&d, [225; 16], 1);
    good &= side("one list", &a, &e) && marked(&e, [225; 16], 1);
    good &= side("all triplets", &a, &c) && marked(&c, [0; 16], 0);
    let (ours, plain): (Vec<u64>, Vec<u64>) = (0..100)
        .map(|t| (open_count(&l, &b, t), plain_open_count(&l, &a, t)))
        .unzip();
    let (open, flags) = (
        ours.iter().sum::<u64>(),
        a.flags.iter().filter(|f| **f == 0).count(),
    );
    println!(
        "open counts  {open} entries open, {flags} flags 0; of 100 counts {} differ",
        ours.iter().zip(&plain).filter(|(x, y)| x != y).count()
    );
    good &= ours == plain;
    let text = listing::print(&l, &a);
    listing::read(&l, &text, &mut c);
    let (w, f) = differences(&a, &c);
    let cut = listing::status(&l, &text[..text.len() - 1], &mut c);
    println!(
        "listing      {} bytes read back, {w} weights and {f} flags differ; without its last byte refused {cut}",
        text.len()
    );
    good &= w + f == 0 && cut == 22 && differences(&a, &c) == (0, 0);
    for t in 0..100 {
        rust_average(&l, &mut a, t);
        average(&l, &mut b, t);
    }
    let (w, f) = differences(&a, &b);
    println!(
        "averages     of {} weights {w} differ, of {} flags {f}",
        b.weights.len(),
        b.flags.len()
    );
    good && w + f == 0 && marked(&b, carried(), 2) && weight::compare()
}

const CALLS: [&str; 10] = [
    "rust",
    "carry-on",
    "all-triplets",
    "closed",
    "rust-average",
    "average",
    "named",
    "questions",
    "list",
    "open",
];

/// One round: both sides in turn on cleared buffers. Milliseconds in the order of CALLS.
fn round(l: &Load, a: &mut Sheet, b: &mut Sheet) -> [f64; 10] {
    let n = l.study.count();
    load::clear(a);
    let rust = clock(|| rust(l, a));
    load::clear(b);
    let all = clock(|| all_triplets(l, b));
    assert!(differences(a, b) == (0, 0), "the sides differ");
    load::clear(b);
    let carry = clock(|| carry_on(l, b));
    assert!(differences(a, b) == (0, 0), "the sides differ");
    let closed = clock(|| carry_on(l, b));
    let opened = clock(|| assert!((0..n).map(|t| open_count(l, b, t)).sum::<u64>() > 0)) / n as f64;
    load::clear(b);
    let runs = clock(|| list(l, b));
    assert!(differences(a, b) == (0, 0), "the sides differ");
    let rust_mean = clock(|| (0..n).for_each(|t| rust_average(l, a, t))) / n as f64;
    let mean = clock(|| (0..n).for_each(|t| average(l, b, t))) / n as f64;
    assert!(differences(a, b) == (0, 0), "the averages differ");
    load::clear(b);
    let named = clock(|| (0..n).for_each(|t| run_piece(l, b, t % 16, [t, 0, 0]))) / n as f64;
    let asked = clock(|| (0..n).for_each(|_| questions(l, b))) / n as f64;
    [
        rust, carry, all, closed, rust_mean, mean, named, asked, runs, opened,
    ]
}

fn time(l: &Load, rounds: usize) {
    let (mut a, mut b) = (l.sheet(), l.sheet());
    let rounds: Vec<[f64; 10]> = (0..rounds).map(|_| round(l, &mut a, &mut b)).collect();
    for (k, name) in CALLS.iter().enumerate() {
        println!(
            "{name} {:.5}",
            median(rounds.iter().map(|t| t[k]).collect())
        );
    }
}

/// Bytes of a listing, and milliseconds to read it back.
fn time_listing(l: &Load, rounds: usize) {
    let (mut a, mut b) = (l.sheet(), l.sheet());
    carry_on(l, &mut a);
    let text = listing::print(l, &a);
    let mut times = vec![];
    for _ in 0..rounds {
        load::clear(&mut b);
        times.push(clock(|| listing::read(l, &text, &mut b)));
        assert!(differences(&a, &b) == (0, 0), "the record differs");
    }
    println!("{} {:.5}", text.len(), median(times));
}

/// One call after what it needs: a computed sheet for `closed`, `open` and the averages, which `computed` makes too and then stops; for `read`
/// its listing too, which `printed` makes.
fn work(l: &Load, name: &str) {
    let mut s = l.sheet();
    load::clear(&mut s);
    let after = [
        "computed", "closed", "open", "average", "rust-average", "printed", "read",
    ];
    if after.contains(&name) {
        carry_on(l, &mut s);
    }
    let mut text = vec![];
    if ["printed", "read"].contains(&name) {
        text = listing::print(l, &s);
        load::clear(&mut s);
    }
    match name {
        "nothing" | "computed" | "printed" => (),
        "read" => listing::read(l, &text, &mut s),
        "rust" => rust(l, &mut s),
        "carry-on" | "closed" => carry_on(l, &mut s),
        "all-triplets" => all_triplets(l, &mut s),
        "named" => run_piece(l, &mut s, 0, [0, 0, 0]),
        "questions" => questions(l, &mut s),
        "list" => list(l, &mut s),
        "open" => assert!(open_count(l, &s, 0) > 0),
        "average" => average(l, &mut s, 0),
        "rust-average" => rust_average(l, &mut s, 0),
        _ => panic!("no call {name}"),
    }
    println!("{}", s.flags[0]);
}

fn main() {
    let words: Vec<String> = std::env::args().skip(1).collect();
    let whole = |k: usize| words[k].parse::<usize>().expect("a whole number");
    let mesh = || words.get(6).map_or(12, |_| whole(6) as i64);
    let load = || Load::new(mesh(), whole(2), whole(3), whole(4), whole(5));
    match words[0].as_str() {
        "compare" => std::process::exit(!compare() as i32),
        "time" => time(&load(), whole(1)),
        "work" => work(&load(), &words[1]),
        "listing" => time_listing(&load(), whole(1)),
        "weights" => weight::time(whole(1), whole(2)),
        "weight" => {
            let v = weight::VARIANTS
                .iter()
                .position(|v| *v == words[1])
                .expect("a variant");
            println!("{:e}", weight::Inputs::new().run(v, whole(2)));
        }
        "checks" => println!("{:.2}", check::time(whole(1), whole(2))),
        "check" => check::run(&check::tables(), whole(1)),
        _ => panic!("compare, time, work, listing, weights, weight, checks or check"),
    }
}
