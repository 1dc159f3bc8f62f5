//! The questions of document 01, of request 2 that of the worker, those of request 4's open count, of request 5's reader and of request 7's
//! tables (fans.rs), written from their text: each call's own, in the order in which they are asked. Nothing here is shared with the proved
//! side or with the Rust.
use crate::calls::GridPoints;
use crate::fans::{good_rows, one_cone, paired};
use crate::study::{Grid, Study};

/// The number of the first question that is answered no, or 0. A question may rely on the yes of those before it.
fn first_no(questions: &[(u64, &dyn Fn() -> bool)]) -> u64 {
    questions
        .iter()
        .find(|(_, yes)| !yes())
        .map_or(0, |(number, _)| *number)
}

/// Of two parts of a call, the earlier part's number first.
fn then(no: u64, more: impl FnOnce() -> u64) -> u64 {
    if no != 0 {
        no
    } else {
        more()
    }
}

fn within(x: i64, low: i64, high: i64) -> bool {
    low <= x && x <= high
}

fn components(xs: &[i64]) -> bool {
    xs.iter().all(|x| within(*x, -4096, 4096))
}

fn power(n: i32) -> f64 {
    2f64.powi(n)
}

fn zero_or(x: f64, low: f64, high: f64) -> bool {
    x == 0.0 || (low <= x.abs() && x.abs() <= high)
}

/// Question 11 of frequencies.
fn frequency(x: f64) -> bool {
    zero_or(x, power(-600), power(30))
}

/// Question 11 of points and of directly given vertices.
fn point(x: f64) -> bool {
    zero_or(x, power(-660), power(31))
}

fn points(xs: &[f64]) -> bool {
    xs.iter().all(|x| point(*x))
}

/// Whether a length is the product of counts.
fn long(length: usize, counts: &[i64]) -> bool {
    length as i128 == counts.iter().map(|n| *n as i128).product()
}

pub const CHANNELS: [i64; 5] = [0, 0, 2, 3, 1];

fn known_type(tp: i64) -> bool {
    within(tp, 2, 4)
}

fn lattice(l: &[f64; 9]) -> bool {
    l.iter().all(|x| x.is_finite() && x.abs() <= power(30))
}

pub fn choice(l: &[f64; 9]) -> u64 {
    first_no(&[(2, &|| lattice(l))])
}

pub fn matvec(l: &[f64; 9], v: [i64; 3]) -> u64 {
    first_no(&[(2, &|| lattice(l)), (7, &|| components(&v))])
}

pub fn index(mesh: [i64; 3]) -> u64 {
    first_no(&[(4, &|| mesh.iter().all(|d| within(*d, 1, 256)))])
}

fn mesh_points(g: &Grid) -> i64 {
    g.mesh[0] * g.mesh[1] * g.mesh[2]
}

fn addresses(g: &Grid) -> bool {
    let (n, p) = (mesh_points(g), g.addresses.len() as i64 / 3);
    g.addresses.len() % 3 == 0 && within(p, n, 8 * n) && components(&g.addresses)
}

fn map(g: &Grid) -> bool {
    let (n, p) = (mesh_points(g) as usize, g.addresses.len() as i64 / 3);
    if g.kind == 1 {
        let missing = 8 * n as i64;
        return g.map.len() >= 8 * n
            && g.map[..8 * n]
                .iter()
                .all(|v| within(*v, 0, p - 1) || *v == missing);
    }
    g.map.len() > n && g.map[0] == 0 && g.map[n] == p && (0..n).all(|i| g.map[i] < g.map[i + 1])
}

/// Questions 3 to 6.
fn grid(g: &Grid) -> u64 {
    first_no(&[
        (3, &|| g.kind == 1 || g.kind == 2),
        (4, &|| g.mesh.iter().all(|d| within(*d, 1, 128))),
        (5, &|| addresses(g)),
        (6, &|| map(g)),
    ])
}

fn on_grid(g: &Grid, xs: &[i64]) -> bool {
    let p = g.addresses.len() as i64 / 3;
    xs.iter().all(|x| within(*x, 0, p - 1))
}

fn steps(xs: &[i64]) -> bool {
    !xs.is_empty() && xs.len() % 3 == 0 && components(xs)
}

pub fn one_point(g: &Grid, gp: i64, rel: &[i64], room: usize) -> u64 {
    then(grid(g), || {
        first_no(&[
            (7, &|| steps(rel)),
            (10, &|| on_grid(g, &[gp])),
            (12, &|| room == rel.len() / 3),
        ])
    })
}

pub fn many_points(g: &Grid, gps: &[i64], rel: &[i64], room: usize) -> u64 {
    then(grid(g), || {
        first_no(&[
            (7, &|| steps(rel)),
            (9, &|| gps.len() <= 65536),
            (10, &|| on_grid(g, gps)),
            (12, &|| room == gps.len() * (rel.len() / 3)),
        ])
    })
}

fn table(t: &[i64]) -> bool {
    [24, 48, 72, 96].contains(&(t.len() / 12)) && t.len() % 12 == 0 && components(t)
}

pub fn weight(omega: f64, vertices: &[f64]) -> u64 {
    first_no(&[
        (7, &|| [96, 192, 288, 384].contains(&vertices.len())),
        (11, &|| points(vertices) && point(omega)),
    ])
}

pub fn normal(triplet: [i64; 3], list: &[i64]) -> u64 {
    let p = list.len() as i64 / 3;
    first_no(&[
        (5, &|| list.len() % 3 == 0 && components(list)),
        (10, &|| triplet.iter().all(|g| within(*g, 0, p - 1))),
    ])
}

pub fn copies(t: &[i64], tp: i64, room: usize) -> u64 {
    first_no(&[
        (7, &|| table(t)),
        (8, &|| known_type(tp)),
        (12, &|| room == 2 * t.len()),
    ])
}

pub fn channels(tp: i64) -> u64 {
    first_no(&[(8, &|| known_type(tp))])
}

/// Questions 9 to 12 of a call for weights at grid points.
fn at_grid_points(g: &Grid, c: &GridPoints, room: usize) -> u64 {
    let frequencies = || {
        c.irreducible > 0
            && long(c.frequencies.len(), &[c.irreducible, c.bands])
            && c.frequencies.iter().all(|x| frequency(*x))
            && c.of_point.len() == g.addresses.len() / 3
            && c.of_point.iter().all(|v| within(*v, 0, c.irreducible - 1))
            && points(&c.points)
    };
    first_no(&[
        (9, &|| {
            counts(&[c.bands], c.points.len() as i64, c.gps.len() as i64)
        }),
        (10, &|| on_grid(g, &c.gps)),
        (11, &frequencies),
        (12, &|| {
            long(room, &[c.gps.len() as i64, c.points.len() as i64, c.bands])
        }),
    ])
}

pub fn grid_points(g: &Grid, c: &GridPoints, room: usize) -> u64 {
    let rows = || first_no(&[(7, &|| table(&c.table))]);
    then(then(grid(g), rows), || at_grid_points(g, c, room))
}

pub fn customer_table(t: &[i64]) -> u64 {
    first_no(&[
        (7, &|| table(t)),
        (23, &|| good_rows(t)),
        (24, &|| paired(t)),
        (25, &|| one_cone(t)),
    ])
}

pub fn checked_grid_points(g: &Grid, c: &GridPoints, room: usize) -> u64 {
    let fan = || customer_table(&c.table);
    then(then(grid(g), fan), || at_grid_points(g, c, room))
}

/// Question 9: band counts, points, and triplets or grid points.
fn counts(bands: &[i64], points: i64, things: i64) -> bool {
    bands.iter().all(|b| within(*b, 1, 64)) && within(points, 1, 1024) && within(things, 0, 65536)
}

/// Triplets begun: an unfinished one counts.
fn triplets_begun(s: &Study) -> i64 {
    (s.triplets.len() as i64 + 2) / 3
}

fn study_frequencies(s: &Study) -> bool {
    let p = s.grid.addresses.len() as i64 / 3;
    long(s.f1.len(), &[p, s.bands[0]])
        && long(s.f2.len(), &[p, s.bands[1]])
        && s.f1.iter().chain(&s.f2).all(|x| frequency(*x))
        && points(&s.points)
}

/// Questions 3 to 11.
fn study(s: &Study) -> u64 {
    then(grid(&s.grid), || {
        first_no(&[
            (7, &|| table(&s.table)),
            (8, &|| known_type(s.tp)),
            (9, &|| {
                counts(&s.bands, s.points.len() as i64, triplets_begun(s))
            }),
            (10, &|| {
                s.triplets.len() % 3 == 0 && on_grid(&s.grid, &s.triplets)
            }),
            (11, &|| study_frequencies(s)),
        ])
    })
}

/// Entries of one channel: triplets, points, both bands.
fn entries(s: &Study) -> [i64; 4] {
    [
        s.triplets.len() as i64 / 3,
        s.points.len() as i64,
        s.bands[0],
        s.bands[1],
    ]
}

fn weights_long(s: &Study, weights: usize, flags: usize) -> bool {
    let [t, x, b1, b2] = entries(s);
    long(weights, &[CHANNELS[s.tp as usize], t, x, b1, b2]) && long(flags, &[t, x, b1, b2])
}

pub fn triplets(s: &Study, weights: usize, flags: usize) -> u64 {
    then(study(s), || {
        first_no(&[(12, &|| weights_long(s, weights, flags))])
    })
}

/// A text that is well formed and at most 16,384 bytes long: at most 4,096 weights, a count that is not tested where 8 or 9 says no;
/// then the study's questions.
pub fn text(s: &Study) -> u64 {
    let counted = || {
        let [t, x, b1, b2] = entries(s).map(|n| n as i128);
        !known_type(s.tp)
            || !counts(&s.bands, s.points.len() as i64, triplets_begun(s))
            || CHANNELS[s.tp as usize] as i128 * t * x * b1 * b2 <= 4096
    };
    then(first_no(&[(1, &counted)]), || study(s))
}

/// Each id is its own place or the id before it.
fn ids(list: &[i64], bands: i64) -> bool {
    list.len() as i64 == bands
        && (0..list.len()).all(|k| list[k] == k as i64 || (k > 0 && list[k] == list[k - 1]))
}

/// Question 19.
fn averageable(w: f64) -> bool {
    w.is_finite() && w.abs() <= power(60) && !(w == 0.0 && w.is_sign_negative())
}

/// What a call that averages one triplet's weights takes.
pub struct Averages<'a> {
    pub weights: &'a [f64],
    pub flags: usize,
    pub ids: [&'a [i64]; 2],
    pub points: i64,
    pub bands: i64,
    pub tp: i64,
}

pub fn averages(c: &Averages) -> u64 {
    let each = [c.points, c.bands, c.bands];
    let room = || {
        let channels = CHANNELS[c.tp as usize];
        long(c.weights.len(), &[channels, c.points, c.bands, c.bands]) && long(c.flags, &each)
    };
    first_no(&[
        (8, &|| known_type(c.tp)),
        (9, &|| counts(&[c.bands], c.points, 0)),
        (12, &room),
        (17, &|| c.ids.iter().all(|l| ids(l, c.bands))),
        (19, &|| c.weights.iter().all(|w| averageable(*w))),
    ])
}

/// Where a worker's count stands; by the lowest four bits, so that what is no worker has a place too.
pub fn place(worker: i64) -> usize {
    (worker & 15) as usize
}

/// The worker, then that count alone.
pub fn tally(counts: &[u64; 16], worker: i64, runs: u64) -> u64 {
    let before = counts[place(worker)] as u128;
    first_no(&[
        (21, &|| within(worker, 0, 15)),
        (20, &|| before + (runs as u128) < 1 << 63),
    ])
}

pub fn open_count(tp: i64, counts_of: [i64; 4], weights: usize, triplet: i64) -> u64 {
    let [t, x, b1, b2] = counts_of;
    let room = || long(weights, &[CHANNELS[tp as usize], t, x, b1, b2]);
    first_no(&[
        (8, &|| known_type(tp)),
        (9, &|| counts(&[b1, b2], x, t)),
        (12, &room),
        (14, &|| within(triplet, 0, t - 1)),
    ])
}

/// `printed`: whether the listing is one that the writer prints for these counts.
pub fn read_listing(
    tp: i64,
    counts_of: [i64; 4],
    rooms: [usize; 2],
    printed: &dyn Fn() -> bool,
) -> u64 {
    let [t, x, b1, b2] = counts_of;
    let room = || {
        long(rooms[0], &[CHANNELS[tp as usize], t, x, b1, b2]) && long(rooms[1], &[t, x, b1, b2])
    };
    first_no(&[
        (8, &|| known_type(tp)),
        (9, &|| counts(&[b1, b2], x, t)),
        (12, &room),
        (22, printed),
    ])
}

/// A sheet as a call is given it.
pub struct Sheet<'a> {
    pub weights: &'a [f64],
    pub flags: usize,
    pub marks: &'a [u8],
    pub tally: &'a [u64; 16],
}

/// The marks of a triplet.
fn marks_of<'a>(s: &Study, sheet: &Sheet<'a>, t: usize) -> &'a [u8] {
    let pieces = (s.bands[0] * s.bands[1]) as usize;
    &sheet.marks[t * pieces..][..pieces]
}

fn marks(s: &Study, sheet: &Sheet) -> bool {
    (0..s.triplets.len() / 3).all(|t| {
        let m = marks_of(s, sheet, t);
        let averaged = m.iter().filter(|x| **x == 2).count();
        m.iter().all(|x| *x <= 2) && (averaged == 0 || averaged == m.len())
    })
}

/// Questions 3 to 13.
fn sheet_study(s: &Study, sheet: &Sheet) -> u64 {
    let [t, _, b1, b2] = entries(s);
    then(study(s), || {
        first_no(&[
            (12, &|| {
                weights_long(s, sheet.weights.len(), sheet.flags)
                    && long(sheet.marks.len(), &[t, b1, b2])
            }),
            (13, &|| marks(s, sheet)),
        ])
    })
}

fn has_triplet(s: &Study, t: i64) -> bool {
    within(t, 0, entries(s)[0] - 1)
}

fn averaged(s: &Study, sheet: &Sheet, t: i64) -> bool {
    marks_of(s, sheet, t as usize).contains(&2)
}

pub fn run_piece(s: &Study, sheet: &Sheet, worker: i64, piece: [i64; 3]) -> u64 {
    let [t, b1, b2] = piece;
    let there =
        || has_triplet(s, t) && within(b1, 0, s.bands[0] - 1) && within(b2, 0, s.bands[1] - 1);
    let named = || first_no(&[(14, &there), (15, &|| !averaged(s, sheet, t))]);
    then(then(sheet_study(s, sheet), named), || {
        tally(sheet.tally, worker, 1)
    })
}

pub fn carry_on(s: &Study, sheet: &Sheet, worker: i64) -> u64 {
    let open = || sheet.marks.iter().filter(|m| **m == 0).count() as u64;
    then(sheet_study(s, sheet), || tally(sheet.tally, worker, open()))
}

fn triplet_averageable(s: &Study, sheet: &Sheet, t: i64) -> bool {
    let [all, x, b1, b2] = entries(s).map(|n| n as usize);
    let each = x * b1 * b2;
    (0..CHANNELS[s.tp as usize] as usize).all(|c| {
        let at = (c * all + t as usize) * each;
        sheet.weights[at..at + each].iter().all(|w| averageable(*w))
    })
}

pub fn average_triplet(s: &Study, sheet: &Sheet, t: i64, lists: [&[i64]; 2]) -> u64 {
    then(sheet_study(s, sheet), || {
        first_no(&[
            (14, &|| has_triplet(s, t)),
            (15, &|| !averaged(s, sheet, t)),
            (16, &|| s.bands[0] == s.bands[1]),
            (17, &|| lists.iter().all(|l| ids(l, s.bands[0]))),
            (18, &|| {
                marks_of(s, sheet, t as usize).iter().all(|m| *m == 1)
            }),
            (19, &|| triplet_averageable(s, sheet, t)),
        ])
    })
}
