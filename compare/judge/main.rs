//! The proved library against the original Rust, in one program: fresh random calls of every kind.
//!
//!     judge SEED times K        K times the rounds of each group below
//!     judge SEED seconds S      about S seconds, shared out among the groups, each at least once its rounds
//!     judge SEED times K KIND   the group alone that has the kind
//!
//! It prints a line for each kind (report.rs). The status is 1 where an answer or a byte of a buffer differs, or where a number that a
//! kind can answer, or acceptance, never came.
mod answers;
mod asks;
mod averages;
#[allow(dead_code)]
mod calls;
mod customer;
mod customer_tables;
mod fans;
mod gridpoints;
mod grids;
mod kernels;
mod lattices;
mod lent;
mod listing_faults;
mod listings;
mod loads;
mod nan;
mod neighbours;
mod report;
mod rng;
mod sheets;
mod studies;
mod study;
mod tables;
mod triplets;
mod values;
mod weights;

use report::{Kind, Seen};
use rng::Rng;
use std::time::{Duration, Instant};

/// Kinds that are drawn together.
struct Group {
    kinds: &'static [Kind],
    cases: fn(&mut Rng, &mut [Seen]),
    /// How often `cases` is called with `times 1`.
    rounds: u64,
    /// Its part of the seconds, in hundredths.
    share: u64,
}

static GROUPS: [Group; 13] = [
    Group {
        kinds: &lattices::KINDS,
        cases: lattices::cases,
        rounds: 2500,
        share: 4,
    },
    Group {
        kinds: &neighbours::KINDS,
        cases: neighbours::cases,
        rounds: 5000,
        share: 13,
    },
    Group {
        kinds: &weights::KINDS,
        cases: weights::cases,
        rounds: 25000,
        share: 16,
    },
    Group {
        kinds: &gridpoints::KINDS,
        cases: gridpoints::cases,
        rounds: 2000,
        share: 7,
    },
    Group {
        kinds: &triplets::KINDS,
        cases: triplets::cases,
        rounds: 2000,
        share: 15,
    },
    Group {
        kinds: &averages::KINDS,
        cases: averages::cases,
        rounds: 4000,
        share: 10,
    },
    Group {
        kinds: &sheets::KINDS,
        cases: sheets::cases,
        rounds: 2000,
        share: 15,
    },
    Group {
        kinds: &answers::KINDS,
        cases: answers::cases,
        rounds: 2000,
        share: 5,
    },
    Group {
        kinds: &nan::KINDS,
        cases: nan::cases,
        rounds: 400000,
        share: 4,
    },
    Group {
        kinds: &loads::KINDS,
        cases: loads::cases,
        rounds: 4000,
        share: 1,
    },
    Group {
        kinds: &listings::KINDS,
        cases: listings::cases,
        rounds: 1000,
        share: 4,
    },
    Group {
        kinds: &tables::KINDS,
        cases: tables::cases,
        rounds: 100,
        share: 1,
    },
    Group {
        kinds: &customer::KINDS,
        cases: customer::cases,
        rounds: 2000,
        share: 5,
    },
];

#[derive(Clone, Copy)]
enum Length {
    Times(u64),
    Seconds(u64),
}

impl Group {
    /// Whether all is well.
    fn run(&'static self, seed: u64, length: Length) -> bool {
        let mut r = Rng::new(seed);
        let mut seen: Vec<Seen> = self.kinds.iter().map(Seen::new).collect();
        let rounds = match length {
            Length::Times(k) => k * self.rounds,
            Length::Seconds(_) => self.rounds,
        };
        let start = Instant::now();
        for _ in 0..rounds {
            (self.cases)(&mut r, &mut seen);
        }
        if let Length::Seconds(s) = length {
            let part = Duration::from_millis(10 * s * self.share);
            while start.elapsed() < part {
                (0..10).for_each(|_| (self.cases)(&mut r, &mut seen));
            }
        }
        // every kind is printed
        seen.iter().map(Seen::print).filter(|well| !well).count() == 0
    }
}

/// All groups, or the one with a kind of that name.
fn run(seed: u64, length: Length, kind: Option<&String>) -> bool {
    let mut well = nan::outside();
    let named = |group: &Group| kind.is_none_or(|n| group.kinds.iter().any(|k| k.name == n));
    for (k, group) in GROUPS.iter().enumerate().filter(|(_, g)| named(g)) {
        // each group its own numbers, whatever the others draw
        let own = Rng::new(seed ^ (k as u64 + 1) << 56).next();
        well &= group.run(own, length);
    }
    well
}

fn main() {
    let words: Vec<String> = std::env::args().skip(1).collect();
    let number = |k: usize| words[k].parse::<u64>().expect("a whole number");
    let length = match words[1].as_str() {
        "times" => Length::Times(number(2)),
        "seconds" => Length::Seconds(number(2)),
        _ => panic!("times or seconds"),
    };
    let seed = number(0);
    // one thread, and the Rust's parallel loops in it
    let pool = rayon::ThreadPoolBuilder::new()
        .stack_size(1 << 24)
        .num_threads(1)
        .build()
        .expect("a thread");
    let well = pool.install(|| run(seed, length, words.get(3)));
    std::process::exit(!well as i32);
}
