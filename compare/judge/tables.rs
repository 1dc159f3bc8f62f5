//! The four tables: those in use, and the generated ones of request 6. Neither call takes or asks anything.
use crate::calls::{self, TABLES};
use crate::lent::{any, Lent};
use crate::report::{Kind, Seen};
use crate::rng::Rng;
use phonors::tetrahedron_method::all_relative_grid_address;

pub const KINDS: [Kind; 2] = [
    Kind::new("the four tables", &[]),
    Kind::new("the generated tables", &[]),
];

pub fn cases(r: &mut Rng, seen: &mut [Seen]) {
    in_use(r, &mut seen[0]);
    generated(r, &mut seen[1]);
}

type Place = [i64; 3];
type Row = [Place; 4];

/// In this order.
const DIAGONALS: [Place; 4] = [[1, 1, 1], [-1, 1, 1], [1, -1, 1], [1, 1, -1]];

/// What a call leaves in a lent buffer that held any numbers, and whether all around it is as it was.
fn left(r: &mut Rng, call: fn(&mut [i64])) -> (Vec<i64>, bool) {
    let before = any(r, TABLES);
    let mut out = Lent::new(r, &before);
    call(out.lend());
    let numbers = out.lend().to_vec();
    let around = out.holds(&numbers);
    (numbers, around)
}

/// Number for number the Rust's: the order of rows and corners too.
fn in_use(r: &mut Rng, seen: &mut Seen) {
    let (got, around) = left(r, calls::all_tables);
    let want = all_relative_grid_address().concat().concat().concat();
    seen.note(0, got == want && around, || {
        match (0..TABLES).find(|k| got[*k] != want[*k]) {
            Some(k) => format!(
                "table {}, row {}, corner {}, component {}: {} for {}",
                k / 288,
                k / 12 % 24,
                k / 3 % 4,
                k % 3,
                got[k],
                want[k]
            ),
            None => "a number beside the tables is written".to_string(),
        }
    });
}

/// The rows of the Rust's tables and of the ways along edges, up to the order of rows and of corners 1 to 3; the same at each call.
fn generated(r: &mut Rng, seen: &mut Seen) {
    let [(got, around), (again, still)] = [0; 2].map(|_| left(r, calls::generated_tables));
    let mut said = vec![];
    if !around || !still {
        said.push("a number beside the tables is written".to_string());
    }
    if got != again {
        said.push("a second call gives other numbers".to_string());
    }
    let rust = all_relative_grid_address();
    for (t, table) in got.chunks(288).enumerate() {
        let rows: Vec<Row> = table.chunks(12).map(row).collect();
        for k in (0..24).filter(|k| rows[*k][0] != [0; 3]) {
            said.push(format!(
                "table {t}, generated row {k}: corner 0 is not at zero"
            ));
        }
        said.extend(unpaired(t, &rows, "Rust's", &rust[t]));
        said.extend(unpaired(t, &rows, "walked", &walked(DIAGONALS[t])));
    }
    seen.note(0, said.is_empty(), || said.join("; "));
}

fn row(numbers: &[i64]) -> Row {
    std::array::from_fn(|corner| std::array::from_fn(|k| numbers[3 * corner + k]))
}

/// The rows on either side that have not exactly one partner on the other.
fn unpaired(t: usize, generated: &[Row], whose: &str, others: &[Row]) -> Vec<String> {
    let (generated, others) = (in_order(generated), in_order(others));
    let sides = [
        ("generated", &generated, whose, &others),
        (whose, &others, "generated", &generated),
    ];
    let mut said = vec![];
    for (name, own, other_name, other) in sides {
        for (k, row) in own.iter().enumerate() {
            let partners = other.iter().filter(|x| *x == row).count();
            if partners != 1 {
                said.push(format!(
                    "table {t}, {name} row {k} {row:?}: {partners} of the {other_name} rows are the same"
                ));
            }
        }
    }
    said
}

/// Rows with corners 1 to 3 in an order of their own; corner 0 stays.
fn in_order(rows: &[Row]) -> Vec<Row> {
    let mut rows = rows.to_vec();
    rows.iter_mut().for_each(|row| row[1..].sort());
    rows
}

/// Request 6's rows for a diagonal: those of its six ways.
fn walked(diagonal: Place) -> Vec<Row> {
    ways(diagonal).into_iter().flat_map(rows_of).collect()
}

/// "The six ways from one end to the other along three different edges", of each "the four places passed": whatever vertices of the cell
/// lie between, edges join them. (Both ends differ in all components, so that no two of three edges run in one direction.)
fn ways(diagonal: Place) -> Vec<[Place; 4]> {
    let [start, end] = ends(diagonal);
    let mut ways = vec![];
    for a in vertices() {
        for b in vertices() {
            let way = [start, a, b, end];
            if way.windows(2).all(|pair| edge(pair[0], pair[1])) {
                ways.push(way);
            }
        }
    }
    ways
}

/// The vertices that a main diagonal joins: along it a component goes from 0 to 1, or from 1 to 0 where its sign is minus.
fn ends(diagonal: Place) -> [Place; 2] {
    [
        diagonal.map(|d| (d < 0) as i64),
        diagonal.map(|d| (d > 0) as i64),
    ]
}

/// The eight vertices of the cell.
fn vertices() -> impl Iterator<Item = Place> {
    (0..8).map(|k| [k & 1, k >> 1 & 1, k >> 2])
}

/// Whether an edge of the cell joins two vertices.
fn edge(a: Place, b: Place) -> bool {
    (0..3).filter(|k| a[*k] != b[*k]).count() == 1
}

/// "Shift each so that each of its four places in turn lies at zero", and that place becomes corner 0.
fn rows_of(way: [Place; 4]) -> [Row; 4] {
    [0, 1, 2, 3].map(|zero| {
        let mut row = way.map(|place| minus(place, way[zero]));
        row.swap(0, zero);
        row
    })
}

fn minus(a: Place, b: Place) -> Place {
    [a[0] - b[0], a[1] - b[1], a[2] - b[2]]
}
