//! Weights at grid points.
use crate::calls::GridPoints;
use crate::grids::{self, grid};
use crate::lent::{any, Lent};
use crate::report::{Kind, Seen};
use crate::rng::{Rng, FAR};
use crate::studies::{
    off_grid, other_length, spoil_float, spoil_floats, spoil_table, spoiled_count, table,
};
use crate::study::{rows, triples, Grid};
use crate::values::{self, frequencies, FREQUENCY, POINT};
use crate::{asks, calls};
use phonors::tetrahedron_method::{integration_weights_at_grid_points, WeightFunction};

const NUMBERS: &[u64] = &[3, 4, 5, 6, 7, 9, 10, 11, 12];
pub const NOT_ZERO: &str = "have a weight other than 0";

pub const KINDS: [Kind; 2] = [
    Kind::telling("grid-point weights I", NUMBERS, NOT_ZERO),
    Kind::telling("grid-point weights J", NUMBERS, NOT_ZERO),
];

fn sound(r: &mut Rng, g: &Grid, table: fn(&mut Rng) -> Vec<i64>) -> GridPoints {
    let p = g.count();
    let irreducible = r.between(1, p as i64);
    let bands = if r.one_in(200) { 64 } else { r.between(1, 3) };
    let style = r.pick(&values::STYLES);
    let frequencies = frequencies(r, style, (irreducible * bands) as usize);
    let (points, gps) = match r.below(20000) {
        0 if bands == 1 => (1, 65536),
        1..=40 => (r.pick(&[1023, 1024]), 1),
        _ => (r.between(1, 5) as usize, r.pick(&[0, 1, 1, 1, 2, 2, 3, 3])),
    };
    GridPoints {
        points: values::points(r, &frequencies, points),
        table: table(r),
        gps: (0..gps).map(|_| r.below(p) as i64).collect(),
        frequencies,
        bands,
        irreducible,
        of_point: (0..p).map(|_| r.between(0, irreducible - 1)).collect(),
    }
}

fn spoil_counts(r: &mut Rng, c: &mut GridPoints) {
    match r.below(20) {
        0 => c.gps.resize(65536 + r.pick(&[1, 2]), 0),
        1..=4 => c.points.clear(),
        5..=8 => c.points = vec![1.0; 1025],
        _ => c.bands = spoiled_count(r, 64),
    }
}

fn spoil_points(r: &mut Rng, g: &Grid, c: &mut GridPoints) {
    c.gps.push(0);
    let k = r.below(c.gps.len());
    c.gps[k] = off_grid(r, g.count() as i64);
}

fn spoil_map(r: &mut Rng, c: &mut GridPoints) {
    match r.below(3) {
        0 => drop(c.of_point.pop()),
        1 => c.of_point.push(0),
        _ => {
            if !c.of_point.is_empty() {
                let k = r.below(c.of_point.len());
                c.of_point[k] = r.pick(&[-1, c.irreducible, FAR[0], FAR[1]]);
            }
        }
    }
}

fn spoil_frequencies(r: &mut Rng, c: &mut GridPoints) {
    match r.below(6) {
        0 | 1 => spoil_floats(r, &mut c.frequencies, FREQUENCY),
        2 => spoil_float(r, &mut c.points, POINT),
        3 => {
            c.irreducible = r.pick(&[
                0,
                -1,
                c.irreducible + 1,
                c.irreducible - 1,
                1 << 62,
                1 << 61,
                FAR[0],
                FAR[1],
            ])
        }
        _ => spoil_map(r, c),
    }
}

/// An entry for weights at grid points: its questions, the call, its tables, and the faults that they get.
pub struct Entry {
    pub asks: fn(&Grid, &GridPoints, usize) -> u64,
    pub call: fn(&Grid, &GridPoints, &mut [f64], u8) -> u64,
    pub table: fn(&mut Rng) -> Vec<i64>,
    pub faults: &'static [fn(&mut Rng, &mut Vec<i64>)],
}

const ENTRY: Entry = Entry {
    asks: asks::grid_points,
    call: calls::grid_points,
    table,
    faults: &[spoil_table],
};

/// What a call takes, the length of its buffer too.
pub struct Case {
    grid: Grid,
    call: GridPoints,
    room: usize,
}

impl Case {
    pub fn table(&self) -> &[i64] {
        &self.call.table
    }
}

pub fn cases(r: &mut Rng, seen: &mut [Seen]) {
    let case = case(r, &ENTRY);
    judge(r, &case, &ENTRY, seen);
}

pub fn case(r: &mut Rng, entry: &Entry) -> Case {
    let mut g = grid(r);
    let mut c = sound(r, &g, entry.table);
    let mut shorter = false;
    let tables = entry.faults.len();
    for k in r.faults(8 + tables) {
        match k {
            0..=3 => grids::FAULTS[k](r, &mut g),
            k if k < 4 + tables => entry.faults[k - 4](r, &mut c.table),
            k => match k - tables {
                4 => spoil_counts(r, &mut c),
                5 => spoil_points(r, &g, &mut c),
                6 => spoil_frequencies(r, &mut c),
                _ => shorter = true,
            },
        }
    }
    let right = c.gps.len() * c.points.len() * c.bands.clamp(0, 64) as usize;
    let right = right.min(1 << 18);
    let room = if shorter {
        other_length(r, right)
    } else {
        right
    };
    Case {
        grid: g,
        call: c,
        room,
    }
}

/// The call with I, or with J; `seen` has both.
pub fn judge(r: &mut Rng, case: &Case, entry: &Entry, seen: &mut [Seen]) {
    let i = r.one_in(2);
    one(r, case, entry, i, &mut seen[1 - i as usize]);
}

fn one(r: &mut Rng, case: &Case, entry: &Entry, i: bool, seen: &mut Seen) {
    let Case {
        grid: g,
        call: c,
        room,
    } = case;
    let no = (entry.asks)(g, c, *room);
    let mut want: Vec<f64> = any(r, *room);
    let mut out = Lent::new(r, &want);
    let letter = if i { b'I' } else { r.pick(b"J\0i\xff") };
    let answer = (entry.call)(g, c, out.lend(), letter);
    if no == 0 {
        rust(
            g,
            c,
            &mut want,
            if i {
                WeightFunction::I
            } else {
                WeightFunction::J
            },
        );
    }
    let right = answer == no && out.holds(&want);
    seen.tell(no == 0 && want.iter().any(|w| *w != 0.0));
    seen.note(no, right, || format!("{answer}, room {room}, {c:?}, {g:?}"));
}

fn rust(g: &Grid, c: &GridPoints, want: &mut [f64], function: WeightFunction) {
    let addresses = triples(&g.addresses);
    integration_weights_at_grid_points(
        want,
        &c.points,
        &rows(&c.table),
        &c.gps,
        &c.frequencies,
        c.bands as usize,
        &g.view(&addresses),
        &c.of_point,
        function,
    )
    .expect("a kind of grid");
}
