//! Calls every entry. Writes what it got, as text, to the file that PELMETSAVORY_OUT names: C and Python write the same.
mod small;
use pelmetsavory::*;
use small::{all_of, filled, plus, Small, ADDRESSES, BEGUN, GP_MAP};
use std::fmt::Display;

const IDS1: [i64; 3] = [0, 0, 2];
const IDS2: [i64; 3] = [0, 1, 1];

fn hex(x: &[f64]) -> Vec<String> {
    x.iter().map(|w| format!("{:016x}", w.to_bits())).collect()
}

fn text<T: Display>(x: &[T]) -> Vec<String> {
    x.iter().map(T::to_string).collect()
}

fn say(out: &mut String, name: &str, values: Vec<Vec<String>>) {
    let all: Vec<String> = std::iter::once(name.to_string()).chain(values.concat()).collect();
    *out += &(all.join("\t") + "\n");
}

fn listing(s: &Sheet) -> String {
    let mut out = String::from("triplet\tpoint\tb1\tb2\tflag\tw\n");
    for k in 0..135 {
        let w = hex(&[s.weights[k], s.weights[135 + k], s.weights[270 + k]]).join("\t");
        out += &format!("{}\t{}\t{}\t{}\t{}\t{}\n", k / 45, k / 9 % 5, k / 3 % 3, k % 3, s.flags[k], w);
    }
    out
}

fn piece(triplet: i64, b1: i64, b2: i64) -> Piece {
    Piece { triplet, b1, b2 }
}

/// A refusal that leaves the sheet as it was.
fn kept(number: u64, s: &mut Sheet, call: impl FnOnce(&mut Sheet) -> Result<(), Refused>) {
    let before = all_of(s);
    let told = call(s);
    assert_eq!(told, Err(Refused(number)));
    assert!(told.unwrap_err().to_string().ends_with('?'));
    assert!(before == all_of(s));
}

#[test]
fn every_entry_and_every_refusal() {
    assert_eq!(ready(), Ok(()));
    let small = Small::new();
    let y = small.study();
    let mut out = String::new();
    let stored = std::fs::read_to_string(concat!(env!("CARGO_MANIFEST_DIR"), "/../data/listing.txt")).unwrap();
    let mut s = filled(&y, -7.25, 5, BEGUN);

    // refusals, each of which leaves the sheet as it was
    let mut bad = |number, change: &dyn Fn(&mut Study)| {
        let mut b = y;
        change(&mut b);
        kept(number, &mut s, |s| s.carry_on(&b, 2));
    };
    bad(3, &|b| b.shape.bz_grid_type = i64::MIN);
    bad(4, &|b| b.shape.d_diag[1] = 129);
    bad(5, &|b| b.addresses = &ADDRESSES[1..]);
    bad(5, &|b| b.addresses = &[]);
    bad(6, &|b| b.gp_map = &GP_MAP[..8]);
    bad(7, &|b| b.relative_grid_address = &b.relative_grid_address[..276]);
    bad(8, &|b| b.shape.tp_type = 5);
    bad(9, &|b| b.frequency_points = &[]);
    bad(10, &|b| b.triplets = &[0, 1, 2, 3, 12, 6, 4, 11, 7]);
    bad(11, &|b| b.frequencies1 = &b.frequencies1[1..]);
    bad(11, &|b| b.frequency_points = &[f64::NAN]);
    let last = s.weights.pop().unwrap();
    kept(12, &mut s, |s| s.carry_on(&y, 2));
    s.weights.push(last);
    s.marks[19] = 3;
    kept(13, &mut s, |s| s.carry_on(&y, 2));
    s.marks[19] = 0;
    for (t, b1, b2) in [(3, 0, 0), (0, 3, 0), (0, 0, 3), (-1, 0, 0), (0, i64::MIN, 0)] {
        kept(14, &mut s, |s| s.run_piece(&y, 2, piece(t, b1, b2)));
    }
    kept(18, &mut s, |s| s.average_triplet(&y, 0, &IDS1, &IDS2));
    kept(17, &mut s, |s| s.average_triplet(&y, 0, &IDS1, &[]));
    let mut narrow = y;
    narrow.shape.num_band2 = 2;
    narrow.frequencies2 = &y.frequencies2[..24];
    kept(16, &mut Sheet::new(&narrow), |s| s.average_triplet(&narrow, 0, &[0, 0], &[0, 0]));
    kept(20, &mut s, |s| s.run_piece(&y, 9, piece(0, 0, 0)));
    kept(20, &mut s, |s| s.carry_on(&y, 9));
    kept(21, &mut s, |s| s.run_piece(&y, 16, piece(0, 0, 0)));
    kept(21, &mut s, |s| s.carry_on(&y, -1));

    // pieces in a mixed order, of nine workers; repeats counted, averages
    for k in 0..27 {
        let p = k * 5 % 27;
        assert_eq!(s.run_piece(&y, k % 9, piece(p / 9, p / 3 % 3, p % 3)), Ok(()));
    }
    assert!(listing(&s) == stored);
    assert_eq!(s.run_piece(&y, 15, piece(1, 1, 1)), Ok(()));
    let thrice: Vec<(usize, u64)> = (0..9).map(|k| (k, 3)).collect();
    assert_eq!(s.tally, plus(plus(BEGUN, &thrice), &[(15, 1)]));
    let counts = Counts { num_triplets: 3, num_band0: 5, num_band1: 3, num_band2: 3 };
    let open: Vec<u64> = (0..3).map(|t| s.open_count(&y, t).unwrap()).collect();
    say(&mut out, "open", vec![text(&open)]);
    assert_eq!(open, [0, 1, 2].map(|t| open_count(3, counts, &s.weights, t).unwrap()));
    let none = Counts { num_band2: 0, ..counts };
    let far = Counts { num_triplets: 65536, num_band0: 1024, num_band1: i64::MAX, num_band2: i64::MAX };
    assert_eq!(open_count(5, none, &s.weights, 3), Err(Refused(8)));
    assert_eq!(open_count(3, none, &s.weights, 3), Err(Refused(9)));
    assert_eq!(open_count(3, far, &s.weights, 0), Err(Refused(9)));
    assert_eq!(open_count(3, counts, &s.weights[1..], 3), Err(Refused(12)));
    assert_eq!(open_count(2, counts, &s.weights, 0), Err(Refused(12)));
    assert_eq!(open_count(3, counts, &[], 0), Err(Refused(12)));
    assert_eq!((s.open_count(&y, 3), s.open_count(&y, -1)), (Err(Refused(14)), Err(Refused(14))));
    // both zeros, -0 twice, a NaN, the least number in the second channel, both channels
    let edge = [0.0, -0.0, -f64::NAN, 0.0, 2.0, -0.0, -0.0, 0.0, 5e-324, -1.0];
    assert_eq!(open_count(2, Counts { num_triplets: 1, num_band0: 5, num_band1: 1, num_band2: 1 }, &edge, 0), Ok(3));
    let mut carried = Sheet::new(&y);
    assert_eq!(carried.run_piece(&y, 15, piece(0, 2, 1)), Ok(()));
    assert_eq!(carried.carry_on(&y, 0), Ok(()));
    assert!(listing(&carried) == stored && carried.tally == plus([0; 16], &[(0, 26), (15, 1)]));
    let mut nan = carried.clone();
    nan.weights[135] = f64::NAN;
    kept(19, &mut nan, |s| s.average_triplet(&y, 0, &IDS1, &IDS2));
    assert_eq!(s.average_triplet(&y, 1, &IDS1, &IDS2), Ok(()));
    kept(15, &mut s, |s| s.run_piece(&y, 0, piece(1, 0, 0)));
    kept(15, &mut s, |s| s.average_triplet(&y, 1, &IDS1, &IDS2));
    say(&mut out, "averaged", vec![hex(&s.weights), text(&s.flags), text(&s.marks), text(&s.tally)]);
    say(&mut out, "stored", vec![text(&s.to_bytes().unwrap())]);

    // all triplets, one triplet, its averages
    let (mut w, mut f, mut w1, mut f1) = (vec![-1.0; 405], vec![7i8; 135], vec![-1.0; 135], vec![7i8; 45]);
    assert_eq!(integration_weight(&y, &mut w[1..], &mut f), Err(Refused(12)));
    assert!(w.iter().all(|x| *x == -1.0) && f.iter().all(|x| *x == 7));
    assert_eq!(integration_weight(&y, &mut w, &mut f), Ok(()));
    assert!(hex(&w) == hex(&carried.weights) && f == carried.flags);
    assert_eq!(integration_weight_per_triplet(&y, [3, 5, -1], &mut w1, &mut f1), Err(Refused(10)));
    assert_eq!(integration_weight_per_triplet(&y, [3, 5, 6], &mut w1, &mut f1), Ok(()));
    let second = |w: &[f64]| hex(&[&w[45..90], &w[180..225], &w[315..360]].concat());
    assert!(hex(&w1) == second(&w) && f1 == f[45..90]);
    assert_eq!(average_weights_over_degenerate_sets(&mut w1, &mut f1, &IDS1, &IDS2, 5, 3, 1), Err(Refused(8)));
    assert_eq!(average_weights_over_degenerate_sets(&mut w1, &mut f1, &IDS1, &IDS2, 5, 3, 3), Ok(()));
    assert!(hex(&w1) == second(&s.weights) && f1 == s.flags[45..90]);

    // the other entries
    let g = BzGrid { grid: Grid { bz_grid_type: 2, d_diag: [2, 2, 2] }, addresses: &ADDRESSES, gp_map: &GP_MAP };
    let map: Vec<i64> = (0..12).map(|k| k % 4).collect();
    let at = Irreducible { frequencies: &y.frequencies1[..12], num_band: 3, num_ir: 4, gp2irgp_map: &map };
    let rows: Vec<f64> = (0..96).map(|k| if k % 4 == 0 { 0.0 } else { 4.0 }).collect();
    let mut iw = [0.0; 18];
    for (function, want) in [(Function::I, 0.375), (Function::J, 0.3125)] {
        assert_eq!(integration_weights_at_grid_points(&mut iw, &[0.5, 1.25], &small.table, &[0, 7, 11], at, g, function), Ok(()));
        say(&mut out, "grid-points", vec![hex(&iw)]);
        assert_eq!(tetrahedra_integration_weight(2.0, &rows, function), Ok(want));
        say(&mut out, "weight", vec![hex(&[want])]);
    }
    assert_eq!(tetrahedra_integration_weight(2.0, &rows[4..], Function::I), Err(Refused(7)));
    let outside = Irreducible { gp2irgp_map: &[4; 12], ..at };
    assert_eq!(integration_weights_at_grid_points(&mut iw, &[0.5, 1.25], &small.table, &[0, 7, 11], outside, g, Function::I), Err(Refused(11)));
    say(&mut out, "is_n", vec![text(&[is_n([0, 1, 2], &ADDRESSES).unwrap() as u8, is_n([3, 5, 6], &ADDRESSES).unwrap() as u8])]);
    assert_eq!(is_n([0, 1, 12], &ADDRESSES), Err(Refused(10)));
    assert_eq!(is_n([0, 1, 2], &[]), Err(Refused(10)));
    let (mut negated, mut plain) = ([0; 576], [0; 576]);
    assert_eq!(set_relative_grid_address(&mut negated, &small.table, 2), Ok(()));
    assert_eq!(set_relative_grid_address(&mut plain, &small.table, 4), Ok(()));
    assert_eq!(set_relative_grid_address(&mut plain, &small.table, 0), Err(Refused(8)));
    say(&mut out, "copies", vec![text(&negated), text(&plain)]);
    let (mut near, mut many, every) = ([0; 3], [0; 1152], (0..12).collect::<Vec<i64>>());
    assert_eq!(fill_neighboring_grid_points(&mut near, 1, &[-1, 0, 0, 3, 0, 0, -2, 0, 0], g), Ok(()));
    assert_eq!(neighboring_grid_points_many(&mut many, &every, &small.table, g), Ok(()));
    assert_eq!(fill_neighboring_grid_points(&mut near, 12, &[-1, 0, 0, 3, 0, 0, -2, 0, 0], g), Err(Refused(10)));
    assert_eq!(neighboring_grid_points_many(&mut near[..1], &[0], &[4097, 0, 0], g), Err(Refused(7)));
    say(&mut out, "neighbours", vec![text(&near)]);
    say(&mut out, "many", vec![text(&many)]);
    say(&mut out, "index", vec![text(&[grid_index_from_address([-1, 300, 5], [256, 7, 9]).unwrap()])]);
    assert_eq!(grid_index_from_address([0, 0, 0], [257, 1, 1]), Err(Refused(4)));
    let mut unit = [1., 0., 0., 0., 1., 0., 0., 0., 1.];
    let (table, index) = relative_grid_address(&unit).unwrap();
    say(&mut out, "tables", vec![text(&[index]), text(&table), text(&all_relative_grid_address())]);
    generated_tables(&mut out);
    customer_tables(at, g, &mut out);
    unit[4] = f64::INFINITY;
    assert_eq!(relative_grid_address(&unit), Err(Refused(2)));
    let lattice = [0.1, 0.2, 0.3, 1., 2., 3., -4., 0., 4.];
    say(&mut out, "matvec", vec![hex(&matvec_di(&lattice, [3, -4, 4096]).unwrap())]);
    assert_eq!(matvec_di(&lattice, [0, 0, 4097]), Err(Refused(7)));
    let channels: Vec<usize> = (2..5).map(|t| num_channels(t).unwrap()).collect();
    say(&mut out, "channels", vec![text(&channels)]);
    assert_eq!(num_channels(1), Err(Refused(8)));

    // empty arrays: no triplets is a sheet, no grid points is an answer
    let mut no_triplets = y;
    no_triplets.triplets = &[];
    let mut empty = Sheet::with_tally(&no_triplets, BEGUN);
    assert_eq!(empty.carry_on(&no_triplets, 9), Ok(()));
    kept(21, &mut empty, |s| s.carry_on(&no_triplets, 16));
    kept(14, &mut empty, |s| s.run_piece(&no_triplets, 16, piece(0, 0, 0)));
    assert_eq!(empty.tally, BEGUN);
    assert_eq!(integration_weight(&no_triplets, &mut [], &mut []), Ok(()));
    assert_eq!(neighboring_grid_points_many(&mut [], &[], &[0, 0, 0], g), Ok(()));
    assert_eq!(integration_weights_at_grid_points(&mut [], &[0.5], &small.table, &[], at, g, Function::J), Ok(()));
    assert_eq!(fill_neighboring_grid_points(&mut [], 0, &[], g), Err(Refused(7)));

    lists(&y, &mut out);
    no_workers_and_full_counts(&y);
    others_are_full(&y);
    answers(&stored, &mut out);
    listings(&carried, &mut out);
    loads(&mut out);
    if let Ok(path) = std::env::var("PELMETSAVORY_OUT") {
        std::fs::write(path, out).unwrap();
    }
}

/// The rows of each of four tables, corner 0 as it is and corners 1 to 3 sorted, in the order of the table.
fn rows_of(all: &[i64; 1152]) -> Vec<Vec<[[i64; 3]; 4]>> {
    let corner = |row: &[i64], c: usize| [row[3 * c], row[3 * c + 1], row[3 * c + 2]];
    let row = |numbers: &[i64]| {
        let mut row = [0, 1, 2, 3].map(|c| corner(numbers, c));
        row[1..].sort_unstable();
        row
    };
    all.chunks_exact(288).map(|table| table.chunks_exact(12).map(row).collect()).collect()
}

/// The generated tables: of each diagonal the rows of the constant table, each once, in another order.
fn generated_tables(out: &mut String) {
    let (all, made) = (all_relative_grid_address(), generated_relative_grid_address());
    let (constant, generated) = (rows_of(&all), rows_of(&made));
    for (given, found) in constant.iter().zip(&generated) {
        assert!(given.len() == 24 && found.len() == 24 && found.iter().all(|row| row[0] == [0; 3]));
        let times = |row: &[[i64; 3]; 4], rows: &[[[i64; 3]; 4]]| rows.iter().filter(|other| *other == row).count();
        assert!(found.iter().all(|row| times(row, given) == 1) && given.iter().all(|row| times(row, found) == 1));
    }
    assert!(made != all && made == generated_relative_grid_address());

    // by hand, corners 1 to 3 sorted: along x, z, y from 0,0,0 to 1,1,1 one passes 1,0,0 and 1,0,1, and along z, x, y from 0,0,1 to 1,1,0, which is
    // the diagonal 1,1,-1, one passes 0,0,0 and 1,0,0; each with its second place at zero, and with its last
    let xzy = [[[0, 0, 0], [-1, 0, 0], [0, 0, 1], [0, 1, 1]], [[0, 0, 0], [-1, -1, -1], [0, -1, -1], [0, -1, 0]]];
    let zxy = [[[0, 0, 0], [0, 0, 1], [1, 0, 0], [1, 1, 0]], [[0, 0, 0], [-1, -1, 0], [-1, -1, 1], [0, -1, 0]]];
    assert!(xzy.iter().all(|row| generated[0].contains(row)) && zxy.iter().all(|row| generated[3].contains(row)));
    let around = [[0, 0, 0], [0, 1, 0], [1, 0, 0], [1, 1, 0]]; // along x, y and back along x: on no way
    assert!(!generated.concat().contains(&around));
    say(out, "generated", vec![text(&made)]);
}

/// Three vectors, and what makes their sum zero, close a fan of four rows, each of three of the four: six fans fill the room around zero six times.
const FANS: [[[i64; 3]; 3]; 6] = [
    [[1, 0, 0], [0, 1, 0], [0, 0, 1]], [[1, 0, 0], [0, -1, 0], [0, 0, -1]], [[-1, 0, 0], [0, 1, 0], [0, 0, -1]], [[-1, 0, 0], [0, -1, 0], [0, 0, 1]],
    [[1, 1, 0], [0, 1, 1], [-1, -1, -1]], [[-1, -1, 0], [0, -1, -1], [1, 1, 1]],
];

fn fan([a, b, c]: [[i64; 3]; 3]) -> Vec<i64> {
    let d = [0, 1, 2].map(|k| -a[k] - b[k] - c[k]);
    [[b, c, d], [a, c, d], [a, b, d], [a, b, c]].map(|[p, q, r]| [[0; 3], p, q, r].concat()).concat()
}

/// The table with each corner times whole numbers of determinant 1.
fn sheared(table: &[i64]) -> Vec<i64> {
    table.chunks_exact(3).flat_map(|corner| [corner[0], corner[1] + corner[0], corner[2]]).collect()
}

/// The table with one number changed.
fn edited(table: &[i64], row: usize, corner: usize, component: usize, by: i64) -> Vec<i64> {
    let mut rows = table.to_vec();
    rows[12 * row + 3 * corner + component] = by;
    rows
}

/// Tables of the caller's, by both entries: which are accepted, each refusal and two at once, and where 7, 23, 24 and 25 stand among the others.
fn customer_tables(at: Irreducible, g: BzGrid, out: &mut String) {
    let all = all_relative_grid_address();
    let (skew, six) = (sheared(&all[..288]), FANS.map(fan).concat());
    let weights = |table: &[i64], function| {
        let mut iw = [-7.25; 18];
        integration_weights_at_grid_points(&mut iw, &[0.5, 1.25], table, &[0, 7, 11], at, g, function).map(|()| hex(&iw))
    };
    let weights_checked = |table: &[i64], function| {
        let mut iw = [-7.25; 18];
        let told = checked_integration_weights_at_grid_points(&mut iw, &[0.5, 1.25], table, &[0, 7, 11], at, g, function);
        assert!(told.is_ok() || iw == [-7.25; 18]);
        told.map(|()| hex(&iw))
    };
    let mut statuses = Vec::new();
    // the status of a table; the weights under it have the same, and where it is 0 they are those of the call that does not check
    let mut judged = |want: u64, table: &[i64]| {
        let told = check_relative_grid_address(table);
        assert_eq!(number(told), want);
        for function in [Function::I, Function::J] {
            assert_eq!(weights_checked(table, function), told.and_then(|()| weights(table, function)));
        }
        statuses.push(want);
    };
    for table in all.chunks_exact(288) {
        judged(0, table);
        judged(0, &sheared(table));
    }
    let backwards = |row: &[i64]| [&row[..3], &row[9..], &row[6..9], &row[3..6]].concat(); // each determinant is negated
    judged(0, &skew.rchunks_exact(12).flat_map(backwards).collect::<Vec<_>>());
    for length in [0, 12, 276, 287, 289, 300] {
        judged(7, &skew.repeat(2)[..length]);
    }
    for (k, (far, near)) in [(4097, 3), (-4097, -3), (i64::MIN, 4096), (i64::MAX, -4096)].into_iter().enumerate() {
        judged(7, &edited(&skew, 23, k, k % 3, far));
        judged(23, &edited(&skew, 23 * (k % 2), k, 2, near));
    }
    judged(23, &skew.repeat(2));
    for k in 0..3 {
        judged(23, &edited(&skew, 7, 0, k, 1));
        judged(23, &edited(&six, 23, 0, k, -2));
    }
    judged(23, &edited(&six, 0, 1, 1, 2)); // determinant 2, of the row 0, 1, 0 and 0, 0, 1 and -1, -1, -1
    judged(23, &edited(&six, 0, 1, 1, 0)); // and 0
    judged(24, &[&skew[..60], &skew[72..84], &skew[72..]].concat()); // a row twice, and a gap
    let turned: Vec<i64> = skew[60..72].iter().map(|x| -x).collect();
    judged(24, &[&skew[..60], &turned, &skew[72..]].concat()); // a row on the other side
    judged(24, &[&six[..240], &six[..48]].concat()); // a fan twice
    let mut folded = six.clone();
    [12, 13, 14].iter().for_each(|row| folded[12 * row + 9..12 * row + 12].iter_mut().for_each(|x| *x = -*x));
    judged(24, &folded); // each face is in two rows, some on the same side
    judged(25, &six);
    judged(7, &six[..276]); // two at once; the two components leave the determinant as it is
    judged(23, &six.repeat(2));
    judged(23, &edited(&six, 9, 3, 0, 3));
    judged(23, &edited(&six, 9, 3, 0, -3));
    judged(24, &edited(&six, 0, 1, 2, 1));
    say(out, "judged", vec![text(&statuses)]);
    for function in [Function::I, Function::J] {
        let checked = weights_checked(&skew, function).unwrap();
        assert!(checked != weights(&all[..288], function).unwrap()); // another table, other weights
        say(out, "checked", vec![checked]);
    }

    // 6 is asked before the four, 9 to 12 after them
    let mut iw = [-7.25; 18];
    let mut asked = |table: &[i64], length: usize, points: &[i64], num_band, map: usize| {
        let (at, g) = (Irreducible { num_band, ..at }, BzGrid { gp_map: &g.gp_map[..map], ..g });
        number(checked_integration_weights_at_grid_points(&mut iw[..length], &[0.5, 1.25], table, points, at, g, Function::I))
    };
    let outside = [0, 7, 12];
    assert_eq!(asked(&six, 17, &outside, 0, 8), 6);
    assert_eq!(asked(&six, 17, &outside, 0, 9), 25);
    assert_eq!(asked(&skew, 17, &outside, 0, 9), 9);
    assert_eq!(asked(&skew, 17, &outside, 2, 9), 10);
    assert_eq!(asked(&skew, 17, &[0, 7, 11], 2, 9), 11);
    assert_eq!(asked(&skew, 17, &[0, 7, 11], 3, 9), 12);
    assert_eq!(iw, [-7.25; 18]);
}

const IDS: [i64; 6] = [0, 0, 2, 0, 1, 1];
const LIST: [[i64; 6]; 20] = [
    [0, 3, 1, 1, 1, 99], [0, 3, 3, 0, 0, 99], [2, 1, 0, 3, 3, 6], [0, 15, 1, 1, 1, 99], [0, 9, 1, 1, 1, 99], [0, 256, 1, 1, 1, 99], [1, 9, 99, 99, 99, 99],
    [1, -1, 99, 99, 99, 99], [1, 0, 99, 99, 99, 99], [2, 1, 0, 3, 3, 6], [0, i64::MIN, 1, 0, 0, 99], [2, 1, 3, 6, 0, 3], [2, 0, 0, 2, 3, 6], [2, 0, -1, 3, 3, 6],
    [2, 2, 0, 3, 4, 7], [i64::MIN, 2, 3, 6, 0, 3], [1, 9, 99, 99, 99, 99], [1, 16, 99, 99, 99, 99], [2, i64::MIN, 0, 3, 3, 6], [0, 7, 0, 2, 2, 99],
];
const STATUSES: [u64; 20] = [0, 14, 18, 0, 20, 21, 20, 21, 0, 0, 15, 15, 17, 17, 17, 0, 0, 21, 14, 0];

/// The call that six numbers name.
fn named(c: &[i64; 6]) -> Call<'static> {
    let part = |start: i64, end: i64| if 0 <= start && start <= end && end <= 6 { &IDS[start as usize..end as usize] } else { &[] };
    match c[0] {
        0 => Call::Run { worker: c[1], piece: piece(c[2], c[3], c[4]) },
        1 => Call::CarryOn { worker: c[1] },
        _ => Call::Average { triplet: c[1], ids1: part(c[2], c[3]), ids2: part(c[4], c[5]) },
    }
}

/// The number of an answer, 0 where the call was made.
fn number(told: Result<(), Refused>) -> u64 {
    told.map_or_else(|no| no.0, |()| 0)
}

/// A list of calls in one call: in every bit what the same calls make one by one.
fn lists(y: &Study, out: &mut String) {
    let (mut answers, mut tallies) = ([7; 20], [7; 320]);
    let mut s = filled(y, -7.25, 5, BEGUN);
    let (mut other, mut one_by_one, list) = (s.clone(), s.clone(), LIST.concat());
    kept(12, &mut s, |s| s.play_list(y, &list[1..], &IDS, &mut answers, &mut tallies));
    kept(12, &mut s, |s| s.play_list(y, &list[6..], &IDS, &mut answers, &mut tallies));
    kept(12, &mut s, |s| s.play_list(y, &list, &IDS, &mut answers[1..], &mut tallies[16..]));
    for length in [0, 20, 300, 304, 319] {
        kept(12, &mut s, |s| s.play_list(y, &list, &IDS, &mut answers, &mut tallies[..length]));
    }
    s.marks[26] = 1;
    kept(12, &mut s, |s| s.play_list(y, &[], &IDS, &mut answers, &mut tallies));
    assert_eq!(s.play(y, &[]), Ok(vec![]));
    s.marks[26] = 0;
    assert!(answers == [7; 20] && tallies == [7; 320]);
    assert_eq!(s.play(y, &[]), Ok(vec![]));
    assert!(all_of(&s) == all_of(&other));

    assert_eq!(s.play_list(y, &list, &IDS, &mut answers, &mut tallies), Ok(()));
    for (k, c) in LIST.iter().enumerate() {
        let told = match named(c) {
            Call::Run { worker, piece } => one_by_one.run_piece(y, worker, piece),
            Call::CarryOn { worker } => one_by_one.carry_on(y, worker),
            Call::Average { triplet, ids1, ids2 } => one_by_one.average_triplet(y, triplet, ids1, ids2),
        };
        assert_eq!(number(told), STATUSES[k]);
        assert_eq!((answers[k], &tallies[16 * k..16 * k + 16]), (STATUSES[k], &one_by_one.tally[..]));
    }
    assert!(all_of(&s) == all_of(&one_by_one) && s.tally == plus(BEGUN, &[(0, 26), (3, 1), (7, 1), (15, 1)]));
    let calls: Vec<Call> = LIST.iter().map(named).collect();
    let (told, after): (Vec<u64>, Vec<Tally>) = other.play(y, &calls).unwrap().into_iter().map(|(answer, counts)| (number(answer), counts)).unzip();
    assert!(told == STATUSES && after.concat() == tallies && all_of(&other) == all_of(&s));
    let (mut cut, mut told, mut counts) = (filled(y, -7.25, 5, BEGUN), [0; 20], [0; 320]);
    assert_eq!(cut.play_list(y, &list[..30], &IDS, &mut told[..5], &mut counts[..80]), Ok(()));
    assert_eq!(cut.play_list(y, &list[30..], &IDS, &mut told[5..], &mut counts[80..]), Ok(())); // resumed where the cut left the sheet
    assert!(told == answers && counts == tallies && all_of(&cut) == all_of(&s));
    say(out, "list", vec![text(&answers), text(&tallies), hex(&s.weights), text(&s.flags), text(&s.marks), text(&s.tally)]);
    s.marks[26] = 3; // refused whole: every call by the same number, and after every one the counts of the beginning
    assert!(s.play(y, &calls).unwrap() == vec![(Err(Refused(13)), s.tally); 20]);
}

const NONE: [i64; 6] = [-1, 16, 256, 1 << 32, i64::MIN, i64::MAX];
const TOP: u64 = i64::MAX as u64;
const FULL: [u64; 3] = [TOP, TOP + 1, u64::MAX];

/// A run and a carry-on, one by one and as a list, are refused with these numbers.
fn both_kept(s: &mut Sheet, y: &Study, worker: i64, numbers: [u64; 2]) {
    kept(numbers[0], s, |s| s.run_piece(y, worker, piece(0, 1, 1)));
    kept(numbers[1], s, |s| s.carry_on(y, worker));
    let before = all_of(s);
    let played = s.play(y, &[Call::Run { worker, piece: piece(0, 1, 1) }, Call::CarryOn { worker }]).unwrap();
    assert!(played == numbers.map(|n| (Err(Refused(n)), s.tally)) && before == all_of(s));
}

/// What is no worker is 21, whatever the counts are; 20 is asked of the worker's own.
fn no_workers_and_full_counts(y: &Study) {
    for counts in [BEGUN, [FULL[0]; 16], [FULL[1]; 16], [FULL[2]; 16]] {
        let (mut s, mut tally, full) = (filled(y, -7.25, 5, counts), counts, counts != BEGUN);
        for worker in NONE {
            both_kept(&mut s, y, worker, [21, 21]);
            kept(14, &mut s, |s| s.run_piece(y, worker, piece(0, 3, 0)));
            for runs in [0, 1, u64::MAX] {
                assert_eq!(tally_add(&mut tally, worker, runs), Err(Refused(21)));
            }
        }
        for worker in (0..16).filter(|_| full) {
            both_kept(&mut s, y, worker, [20, 20]);
            assert_eq!(tally_add(&mut tally, worker, 1), Err(Refused(20)));
            assert_eq!(tally_add(&mut tally, worker, u64::MAX), Err(Refused(20)));
            assert_eq!(number(tally_add(&mut tally, worker, 0)), if counts[0] == TOP { 0 } else { 20 });
        }
        assert!(tally == counts && s.tally == counts);

        // nothing is open: both are still asked; an averaged triplet is 15 before either, and averaging asks neither
        s.marks.fill(1);
        NONE.iter().for_each(|&worker| kept(21, &mut s, |s| s.carry_on(y, worker)));
        for worker in 0..16 {
            assert_eq!(number(s.carry_on(y, worker)), if counts[0] > TOP { 20 } else { 0 });
        }
        assert_eq!(s.average_triplet(y, 0, &IDS1, &IDS2), Ok(()));
        for worker in NONE.into_iter().chain([9]) {
            kept(15, &mut s, |s| s.run_piece(y, worker, piece(0, 1, 1)));
        }
        assert_eq!(s.tally, counts);
    }
}

/// The other counts are full: they refuse nobody, and the sum is far beyond 2^63.
fn others_are_full(y: &Study) {
    for w in 0..16 {
        let (mut s, worker, mut counts) = (Sheet::new(y), w as i64, [0; 16]);
        (0..16).for_each(|k| counts[k] = FULL[(w + k) % 3]);
        counts[w] = TOP - 27;
        s.tally = counts;
        assert_eq!(s.run_piece(y, worker, piece(0, 1, 1)), Ok(()));
        assert_eq!(s.tally, plus(counts, &[(w, 1)]));
        s.tally[w] += 1;
        kept(20, &mut s, |s| s.carry_on(y, worker)); // 26 are open
        s.tally[w] -= 1;
        assert_eq!(s.carry_on(y, worker), Ok(()));
        assert_eq!(s.tally, plus(counts, &[(w, 27)]));
        assert_eq!(s.carry_on(y, worker), Ok(()));
        kept(20, &mut s, |s| s.run_piece(y, worker, piece(0, 1, 1)));
        counts[w] = 7;
        s.tally = counts;
        s.marks.fill(0);
        let played = s.play(y, &[Call::Run { worker, piece: piece(2, 0, 1) }, Call::CarryOn { worker }]);
        assert_eq!(played, Ok(vec![(Ok(()), plus(counts, &[(w, 1)])), (Ok(()), plus(counts, &[(w, 27)]))]));
        counts[w] = TOP - 1;
        assert_eq!((tally_add(&mut counts, worker, 1), tally_add(&mut counts, worker, 1)), (Ok(()), Err(Refused(20))));
        assert!(counts[w] == TOP && (0..16).all(|k| k == w || counts[k] == s.tally[k]));
    }
}

/// The answer to the text of the stored study is the stored listing.
fn answers(listing: &str, out: &mut String) {
    let study = std::fs::read(concat!(env!("CARGO_MANIFEST_DIR"), "/../data/study.txt")).unwrap();
    let n = study.len();
    let changed = |at: usize, byte: u8| {
        let mut text = study.clone();
        text[at] = byte;
        answer(&text)
    };
    let all = [answer(&study), answer(&study[..n - 1]), answer(&[]), answer(&study.repeat(10)), changed(5, b'7'), changed(n - 4, b'2')];
    let want = [listing, "refused\t1\n", "refused\t1\n", "refused\t1\n", "refused\t3\n", "refused\t10\n"];
    assert!(all.iter().zip(want).all(|(got, want)| got == want.as_bytes()));
    say(out, "answer", vec![text(&all.iter().map(Vec::len).collect::<Vec<_>>())]);
}

/// The header of a listing.
const HEADER: &[u8] = b"triplet\tpoint\tb1\tb2\tflag\tw\n";
/// The counts of the small study.
const SMALL: Counts = Counts { num_triplets: 3, num_band0: 5, num_band1: 3, num_band2: 3 };

/// Reads a listing into buffers of these lengths: what it restored, or the number that refuses it, which leaves them.
fn read(listing: &[u8], tp_type: i64, counts: Counts, lengths: [usize; 2]) -> Result<(Vec<f64>, Vec<i8>), u64> {
    let (mut weights, mut flags) = (vec![-7.25; lengths[0]], vec![5; lengths[1]]);
    match read_listing(listing, tp_type, counts, &mut weights, &mut flags) {
        Ok(()) => Ok((weights, flags)),
        Err(no) => {
            assert!(weights.iter().all(|w| *w == -7.25) && flags.iter().all(|f| *f == 5) && no.to_string().ends_with('?'));
            Err(no.0)
        }
    }
}

/// A listing read back has every bit of what it was printed from; anything else is 22, after 8, 9 and 12.
fn listings(carried: &Sheet, out: &mut String) {
    let listing = answer(&std::fs::read(concat!(env!("CARGO_MANIFEST_DIR"), "/../data/study.txt")).unwrap());
    let (weights, flags) = read(&listing, 3, SMALL, [405, 135]).unwrap();
    assert!(hex(&weights) == hex(&carried.weights) && flags == carried.flags);
    say(out, "listing", vec![hex(&weights), text(&flags)]);

    // the questions before it, in their order, whatever the text is
    let none = Counts { num_band2: 0, ..SMALL };
    for bytes in [&listing[..], HEADER, &[]] {
        for tp_type in [1, 5, 0, i64::MIN, i64::MAX] {
            assert_eq!(read(bytes, tp_type, none, [404, 135]), Err(8));
        }
        for bad in [-1, 65537, i64::MIN, i64::MAX] {
            assert_eq!(read(bytes, 3, Counts { num_triplets: bad, ..SMALL }, [0, 0]), Err(9));
            assert_eq!(read(bytes, 3, Counts { num_triplets: bad, num_band0: bad, num_band1: bad, num_band2: bad }, [405, 135]), Err(9));
        }
        for bad in [0, -1, 65, i64::MIN, i64::MAX] {
            assert_eq!(read(bytes, 3, Counts { num_band1: bad, ..SMALL }, [405, 135]), Err(9));
            assert_eq!(read(bytes, 3, Counts { num_band2: bad, ..SMALL }, [405, 135]), Err(9));
            assert_eq!(read(bytes, 3, Counts { num_band0: if bad == 65 { 1025 } else { bad }, ..SMALL }, [405, 135]), Err(9));
        }
        for lengths in [[404, 135], [406, 135], [405, 134], [405, 136], [135, 405], [0, 0]] {
            assert_eq!(read(bytes, 3, SMALL, lengths), Err(12));
        }
        assert_eq!(read(bytes, 3, Counts { num_triplets: 65536, num_band0: 1024, num_band1: 64, num_band2: 64 }, [405, 135]), Err(12));
    }
    assert_eq!(read(&listing, 2, SMALL, [270, 135]), Err(22));
    assert_eq!(read(&listing, 4, SMALL, [135, 135]), Err(22));
    assert_eq!(read(&listing, 3, Counts { num_triplets: 5, num_band0: 3, ..SMALL }, [405, 135]), Err(22));

    // what no writer printed
    let (n, first, flag, weight) = (listing.len(), HEADER.len(), HEADER.len() + 8, HEADER.len() + 10);
    let with = |at: usize, bytes: usize, by: &[u8]| read(&[&listing[..at], by, &listing[at + bytes..]].concat(), 3, SMALL, [405, 135]);
    let edits: [(usize, usize, &[u8]); 33] = [
        (0, n, b""), (0, n, b"refused\t10\n"), (0, first, b""), (first, n - first, b""), (0, 7, b"Triplet"), (first - 2, 1, b"weight"), (0, 0, b"\xef\xbb\xbf"),
        (flag, 1, b"2"), (flag, 1, b"-1"), (flag, 1, b"00"), (flag, 1, b"+0"), (flag, 1, b""), (flag + 1, 1, b" "), (first + 1, 1, b" "), (flag + 1, 0, b"\t"),
        (first, 1, b"00"), (first, 1, b"1"), (weight, 1, b""), (weight, 0, b"0"), (n - 17, 1, b"A"), (n - 17, 1, b"g"), (n - 2, 1, b"F"), (n - 1, 1, b""),
        (n - 1, 1, b"\r\n"), (n - 1, 1, b"\r"), (n - 1, 1, b"\t\n"), (n, 0, b"\n"), (n, 0, b"0"), (first - 1, 1, b"\r\n"), (n - 17, 16, b"7ff8000000000001"),
        (n - 17, 16, b"fff8000000000000"), (n - 17, 16, b"7ff0000000000001"), (n - 17, 16, b"ffffffffffffffff"),
    ];
    for (at, bytes, by) in edits {
        assert_eq!(with(at, bytes, by), Err(22), "{at} {bytes} {by:?}");
    }
    (0..n).for_each(|at| assert_eq!(with(at, 1, b"x"), Err(22)));
    let lines: Vec<&[u8]> = listing.split_inclusive(|byte| *byte == b'\n').collect();
    let of = |lines: &[&[u8]]| read(&lines.concat(), 3, SMALL, [405, 135]);
    assert!(lines.len() == 136 && of(&lines).is_ok());
    for at in [1, 70, 134] {
        let (mut less, mut more, mut exchanged) = (lines.clone(), lines.clone(), lines.clone());
        less.remove(at);
        more.insert(at, lines[at]);
        exchanged.swap(at, at + 1);
        assert_eq!([of(&less), of(&more), of(&exchanged)], [Err(22), Err(22), Err(22)]);
    }

    // weights that no study has come back too; of the NaNs one is printed
    for bits in [1 << 63, 0x7ff0 << 48, 0xfff0 << 48, 1, u64::MAX >> 12, 0x7ff8 << 48] {
        for (at, place) in [(weight, 0), (n - 17, 404)] {
            let (restored, _) = with(at, 16, format!("{bits:016x}").as_bytes()).unwrap();
            assert_eq!(restored[place].to_bits(), bits);
        }
    }
    let other: i8 = if flags[0] == 0 { 1 } else { 0 };
    assert_eq!(with(flag, 1, other.to_string().as_bytes()).unwrap().1[0], other);

    // without triplets: the header alone
    let empty = Counts { num_triplets: 0, num_band0: 1024, num_band1: 64, num_band2: 64 };
    for tp_type in 2..5 {
        assert_eq!(read(HEADER, tp_type, empty, [0, 0]), Ok((vec![], vec![])));
        assert_eq!([&HEADER[1..], &listing[..], &[]].map(|bytes| read(bytes, tp_type, empty, [0, 0])), [Err(22), Err(22), Err(22)]);
        assert_eq!(read(HEADER, tp_type, empty, [1, 0]), Err(12));
    }
}

/// Test frequencies from a start: one chain over the three, each filled to its own length and no further.
fn loads(out: &mut String) {
    for start in [0, 1, 1 << 31, u32::MAX, 123456789] {
        for counts in [[0, 0, 0], [1, 0, 0], [0, 1, 0], [0, 0, 1], [3, 0, 2], [5, 3, 2]] {
            let mut buffers = counts.map(|n| vec![-7.25; n + 2]);
            let [a, b, c] = &mut buffers;
            fill_frequencies(start, &mut a[1..=counts[0]], &mut b[1..=counts[1]], &mut c[1..=counts[2]]);
            let (mut x, mut said) = (start, vec![text(&[start])]);
            for (n, values) in counts.into_iter().zip(&buffers) {
                assert!(values[0] == -7.25 && values[n + 1] == -7.25);
                for value in &values[1..=n] {
                    x = x.wrapping_mul(1664525).wrapping_add(1013904223);
                    assert_eq!(value.to_bits(), (f64::from(x >> 16) / 4096.0).to_bits());
                }
                said.extend([text(&[n]), hex(&values[1..=n])]);
            }
            say(out, "frequencies", said);
        }
    }
    let mut first = [0.0];
    fill_frequencies(0, &mut first, &mut [], &mut []);
    assert_eq!(first, [3.77685546875]);
}
