//! Answers requests to the original Rust, from standard input to standard output.
//!
//! Fields are parted by one tab. Whole numbers are decimal; a float is the 16 small hexadecimal digits of its bits.
//! A line `TAG FIELDS` puts its fields at the end of the list TAG, and `reset` empties all lists. A line `?KIND FIELDS` asks; it is
//! answered by some lines and a line `.`. A study's text is such a row of lines, and `?listing` gives its listing.
//!
//! | asked | lists | answer |
//! |---|---|---|
//! | `?index` address, mesh | | the grid index |
//! | `?table` n | | the 288 numbers of the built-in table n |
//! | `?lattice` 9 floats | | the number of the table that is chosen |
//! | `?product` 9 floats, 3 numbers | | the lattice times the vector |
//! | `?sort` 4 floats | | the place of the first, and the four sorted |
//! | `?weight` I or J, omega | vertices | the weight |
//! | `?neighbours` | grid addr map gp steps | the neighbours of each point |
//! | `?normal` a b c | addr | 1 where the triplet's addresses add to zero, else 0 |
//! | `?copies` type | row | both copies of the table, one line each |
//! | `?gridpoints` I or J, bands | grid addr map row freq irmap gp point | the weights by grid point, point, band |
//! | `?average` points, bands | w z id1 id2 | all `w`, then all `z`, one line each |
//! | `?listing` | a study's, with `diag` or `row` | the header, and one line an entry |
use phonors::bzgrid::{neighboring_grid_points_many, BzGridView};
use phonors::common::matvec_di;
use phonors::grgrid::grid_index_from_address;
use phonors::probe::probe_sort_omegas;
use phonors::tetrahedron_method as method;
use phonors::triplet;
use phonors::triplet_iw::{average_weights_over_degenerate_sets, TpType};
use std::collections::HashMap;
use std::fmt::{Display, Write as _};
use std::io::Write as _;

type Table = Vec<[[i64; 3]; 4]>;

/// What the lines so far have said.
#[derive(Default)]
struct Lists<'a>(HashMap<&'a str, Vec<&'a str>>);

fn whole(field: &str) -> i64 {
    field.parse().expect("a whole number")
}

fn float(field: &str) -> f64 {
    assert_eq!(field.len(), 16, "16 digits");
    f64::from_bits(u64::from_str_radix(field, 16).expect("hexadecimal digits"))
}

fn wholes(fields: &[&str]) -> Vec<i64> {
    fields.iter().map(|f| whole(f)).collect()
}

fn floats(fields: &[&str]) -> Vec<f64> {
    fields.iter().map(|f| float(f)).collect()
}

/// A flat list as arrays of N.
fn arrays<T: Copy, const N: usize>(flat: &[T]) -> Vec<[T; N]> {
    assert_eq!(flat.len() % N, 0, "arrays of {N}");
    flat.chunks(N).map(|c| c.try_into().unwrap()).collect()
}

fn one<T: Copy, const N: usize>(flat: &[T]) -> [T; N] {
    flat.try_into().unwrap_or_else(|_| panic!("{N} fields"))
}

fn function(letter: &str) -> method::WeightFunction {
    match letter {
        "I" => method::WeightFunction::I,
        "J" => method::WeightFunction::J,
        _ => panic!("I or J"),
    }
}

fn digits(x: &f64) -> String {
    format!("{:016x}", x.to_bits())
}

/// One line of an answer.
fn put<T: Display>(out: &mut String, fields: impl IntoIterator<Item = T>) {
    let fields: Vec<String> = fields.into_iter().map(|f| f.to_string()).collect();
    out.push_str(&fields.join("\t"));
    out.push('\n');
}

impl Lists<'_> {
    fn fields(&self, tag: &str) -> &[&str] {
        self.0.get(tag).map_or(&[], |list| list.as_slice())
    }

    fn wholes(&self, tag: &str) -> Vec<i64> {
        wholes(self.fields(tag))
    }

    fn floats(&self, tag: &str) -> Vec<f64> {
        floats(self.fields(tag))
    }

    fn triples(&self, tag: &str) -> Vec<[i64; 3]> {
        arrays(&self.wholes(tag))
    }

    /// Built-in tables, and the rows that are spelled.
    fn table(&self) -> Table {
        let built_in = self.wholes("diag");
        let tables = built_in.iter().flat_map(|&d| method::all_relative_grid_address()[d as usize]);
        let spelled: Table = arrays(&self.triples("row"));
        tables.chain(spelled).collect()
    }

    /// What is asked of a grid.
    fn on_grid<T>(&self, ask: impl FnOnce(&BzGridView) -> T) -> T {
        let [bz_grid_type, d0, d1, d2] = one(&self.wholes("grid"));
        ask(&BzGridView {
            d_diag: [d0, d1, d2],
            addresses: &self.triples("addr"),
            gp_map: &self.wholes("map"),
            bz_grid_type,
        })
    }

    fn neighbours(&self) -> Vec<i64> {
        let (points, steps) = (self.wholes("gp"), self.triples("steps"));
        let mut out = vec![0; points.len() * steps.len()];
        self.on_grid(|grid| neighboring_grid_points_many(&mut out, &points, &steps, grid)).expect("the grid's kind");
        out
    }

    fn gridpoints(&self, letter: &str, bands: usize) -> Vec<f64> {
        let (points, gp) = (self.floats("point"), self.wholes("gp"));
        let mut out = vec![0.0; gp.len() * points.len() * bands];
        let (table, frequencies, map) = (self.table(), self.floats("freq"), self.wholes("irmap"));
        self.on_grid(|grid| {
            method::integration_weights_at_grid_points(&mut out, &points, &table, &gp, &frequencies, bands, grid, &map, function(letter))
        })
        .expect("the grid's kind");
        out
    }

    /// Weights (channel, triplet, point, b1, b2) and flags of a study.
    fn weights(&self, bands: [i64; 2], points: usize, triplets: &[[i64; 3]]) -> (Vec<f64>, Vec<i8>) {
        let tp_type = TpType::try_from_i64(one::<i64, 1>(&self.wholes("type"))[0]).expect("the type");
        let entries = triplets.len() * points * (bands[0] * bands[1]) as usize;
        let mut weights = vec![0.0; tp_type.num_channels() * entries];
        let mut flags = vec![0; entries];
        let (at, table, f1, f2) = (self.floats("point"), self.table(), self.floats("f1"), self.floats("f2"));
        self.on_grid(|grid| {
            triplet::integration_weight(&mut weights, &mut flags, &at, &table, triplets, grid, &f1, bands[0], &f2, bands[1], tp_type, false)
        })
        .expect("the grid's kind");
        (weights, flags)
    }

    fn listing(&self, out: &mut String) {
        let [b1, b2]: [i64; 2] = one(&self.wholes("bands"));
        let (points, triplets) = (self.fields("point").len(), self.triples("triplet"));
        let (weights, flags) = self.weights([b1, b2], points, &triplets);
        out.push_str("triplet\tpoint\tb1\tb2\tflag\tw\n");
        let pairs = (b1 * b2) as usize;
        for (i, flag) in flags.iter().enumerate() {
            let (t, p, pair) = (i / pairs / points, i / pairs % points, (i % pairs) as i64);
            let _ = write!(out, "{t}\t{p}\t{}\t{}\t{flag}", pair / b2, pair % b2);
            for w in weights[i..].iter().step_by(flags.len()) {
                let _ = write!(out, "\t{:016x}", w.to_bits());
            }
            out.push('\n');
        }
    }

    fn average(&self, points: i64, bands: i64, out: &mut String) {
        let mut w = self.floats("w");
        let mut z: Vec<i8> = self.fields("z").iter().map(|f| f.parse().expect("a flag")).collect();
        let (id1, id2) = (self.wholes("id1"), self.wholes("id2"));
        average_weights_over_degenerate_sets(&mut w, &mut z, &id1, &id2, points as usize, bands as usize);
        put(out, w.iter().map(digits));
        put(out, z);
    }

    fn answer(&self, kind: &str, f: &[&str], out: &mut String) {
        match kind {
            "?index" => {
                let a: [i64; 6] = one(&wholes(f));
                put(out, [grid_index_from_address([a[0], a[1], a[2]], [a[3], a[4], a[5]])]);
            }
            "?table" => put(out, method::all_relative_grid_address()[whole(f[0]) as usize].iter().flatten().flatten()),
            "?lattice" => put(out, [method::relative_grid_address(one(&arrays(&floats(f)))).1]),
            "?product" => put(out, matvec_di(&one(&arrays(&floats(&f[..9]))), one(&wholes(&f[9..]))).iter().map(digits)),
            "?sort" => {
                let mut v: [f64; 4] = one(&floats(f));
                let place = probe_sort_omegas(&mut v);
                put(out, [place.to_string()].into_iter().chain(v.iter().map(digits)));
            }
            "?weight" => {
                let w = method::integration_weight(float(f[1]), &arrays(&self.floats("vertices")), function(f[0]));
                put(out, [digits(&w)]);
            }
            "?neighbours" => put(out, self.neighbours()),
            "?normal" => put(out, [triplet::is_n(one(&wholes(f)), &self.triples("addr")) as i64]),
            "?copies" => {
                for copy in triplet::set_relative_grid_address(&self.table(), whole(f[0])).iter() {
                    put(out, copy.iter().flatten().flatten());
                }
            }
            "?gridpoints" => put(out, self.gridpoints(f[0], whole(f[1]) as usize).iter().map(digits)),
            "?average" => self.average(whole(f[0]), whole(f[1]), out),
            "?listing" => self.listing(out),
            _ => panic!("no such request: {kind}"),
        }
        out.push_str(".\n");
    }
}

fn main() {
    std::env::set_var("RAYON_NUM_THREADS", "1");
    let text = std::io::read_to_string(std::io::stdin()).expect("requests");
    let mut lists = Lists::default();
    let mut out = String::new();
    for line in text.lines() {
        let fields: Vec<&str> = line.split('\t').collect();
        match fields[0] {
            "reset" => lists = Lists::default(),
            kind if kind.starts_with('?') => lists.answer(kind, &fields[1..], &mut out),
            tag => lists.0.entry(tag).or_default().extend(&fields[1..]),
        }
    }
    std::io::stdout().write_all(out.as_bytes()).expect("answers");
}
