//! What was seen of each kind of call: cases, acceptances, refusals by number, differences.

/// A kind of call: the numbers it can answer beside acceptance, and what some accepted calls must show, if anything.
pub struct Kind {
    pub name: &'static str,
    pub numbers: &'static [u64],
    pub telling: Option<&'static str>,
}

impl Kind {
    pub const fn new(name: &'static str, numbers: &'static [u64]) -> Kind {
        Kind {
            name,
            numbers,
            telling: None,
        }
    }

    pub const fn telling(name: &'static str, numbers: &'static [u64], what: &'static str) -> Kind {
        Kind {
            name,
            numbers,
            telling: Some(what),
        }
    }
}

/// One more than the greatest number of a question.
const NUMBERS: usize = 26;

pub struct Seen {
    kind: &'static Kind,
    cases: u64,
    answers: [u64; NUMBERS],
    differ: u64,
    told: u64,
}

/// How many differences of a kind are shown.
const SHOWN: u64 = 3;

impl Seen {
    pub fn new(kind: &'static Kind) -> Seen {
        Seen {
            kind,
            cases: 0,
            answers: [0; NUMBERS],
            differ: 0,
            told: 0,
        }
    }

    /// A case: the number that is right, 0 for acceptance, and whether answer and buffers are as they should be.
    pub fn note(&mut self, number: u64, right: bool, show: impl FnOnce() -> String) {
        self.cases += 1;
        self.answers[number as usize] += 1;
        if !right {
            self.differ += 1;
            if self.differ <= SHOWN {
                let mut text = show();
                text.truncate(2000);
                println!("differs: {}, expected {number}: {text}", self.kind.name);
            }
        }
    }

    /// Whether an accepted call was a telling one.
    pub fn tell(&mut self, telling: bool) {
        self.told += telling as u64;
    }

    /// Numbers that the kind can answer, 0 for acceptance, and that never came.
    fn missing(&self) -> Vec<u64> {
        let all = std::iter::once(&0).chain(self.kind.numbers);
        all.copied()
            .filter(|n| self.answers[*n as usize] == 0)
            .collect()
    }

    /// Numbers that came though the kind cannot answer them.
    fn foreign(&self) -> Vec<u64> {
        (1..NUMBERS as u64)
            .filter(|n| self.answers[*n as usize] > 0 && !self.kind.numbers.contains(n))
            .collect()
    }

    /// The line of compare/run's table; whether all is well.
    pub fn print(&self) -> bool {
        let refused: Vec<String> = (1..NUMBERS)
            .filter(|n| self.answers[*n] > 0)
            .map(|n| format!("{n}:{}", self.answers[n]))
            .collect();
        let refused = if refused.is_empty() {
            "-".to_string()
        } else {
            refused.join(" ")
        };
        let name = self.kind.name;
        println!(
            "kind\t{name}\t{}\t{}\t{refused}\t{}",
            self.cases, self.answers[0], self.differ
        );
        let (missing, foreign) = (self.missing(), self.foreign());
        if !missing.is_empty() {
            println!("{name}: never answered {missing:?} (0 is acceptance)");
        }
        if !foreign.is_empty() {
            println!("{name}: no question of the call has {foreign:?}");
        }
        self.differ == 0 && missing.is_empty() && foreign.is_empty() && self.print_told()
    }

    fn print_told(&self) -> bool {
        let Some(what) = self.kind.telling else {
            return true;
        };
        println!(
            "{}: {} of {} accepted {what}",
            self.kind.name, self.told, self.answers[0]
        );
        self.told > 0
    }
}
