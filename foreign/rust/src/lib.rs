//! A safe face of the proved library. A slice crosses as a pointer and a count; the borrow checker gives what a call takes for granted:
//! valid memory, and no overlap with what is written. An `Err` carries the first question that is answered no; nothing was written then.
//! A run and a carry-on name their worker, 0 to 15, and move that worker's count alone: see [`Tally`].
//! The thread's float mode must be IEEE 754's, and the library of this crate's interface version: see [`ready`].

#![deny(missing_docs)]

#[rustfmt::skip]
mod c;
mod sha256;
pub mod store;
pub use c::{Counts, Grid, Piece, Shape, INTERFACE_VERSION};
use c::Triple;
use std::fmt;

/// The number of the first question that is answered no.
#[derive(Clone, Copy, Debug, PartialEq, Eq)]
pub struct Refused(pub u64);

impl fmt::Display for Refused {
    fn fmt(&self, f: &mut fmt::Formatter) -> fmt::Result {
        let words = c::QUESTIONS.iter().find(|q| q.0 == self.0).map_or("?", |q| q.1);
        write!(f, "question {} is answered no: {}", self.0, words)
    }
}

impl std::error::Error for Refused {}

fn told(status: u64) -> Result<(), Refused> {
    if status == 0 {
        Ok(())
    } else {
        Err(Refused(status))
    }
}

/// Whether this thread rounds to nearest, without flush-to-zero and denormals-are-zero, as the proofs take it.
pub fn float_mode_ok() -> bool {
    let mut mode = 0u32;
    // SAFETY: stores the four bytes of MXCSR.
    unsafe { std::arch::asm!("stmxcsr [{}]", in(reg) &mut mode, options(nostack)) };
    mode & 0xe040 == 0
}

/// Why no call may be made.
#[derive(Clone, Copy, Debug, PartialEq, Eq)]
pub enum NotReady {
    /// The linked library has this interface version, and not [`INTERFACE_VERSION`].
    InterfaceVersion(u64),
    /// This thread's float mode is not IEEE 754's.
    FloatMode,
}

impl fmt::Display for NotReady {
    fn fmt(&self, f: &mut fmt::Formatter) -> fmt::Result {
        match self {
            NotReady::InterfaceVersion(linked) => f.write_str(&c::another_version(*linked)),
            NotReady::FloatMode => f.write_str("this thread's float mode is not IEEE 754's: rounding is not to nearest, or subnormals are flushed"),
        }
    }
}

impl std::error::Error for NotReady {}

/// Whether calls may be made: the library has this crate's interface version, and the thread's float mode is right. Ask it first, in each
/// thread. A call on a library of another version panics, whether or not this was asked.
pub fn ready() -> Result<(), NotReady> {
    match c::linked_version() {
        INTERFACE_VERSION if float_mode_ok() => Ok(()),
        INTERFACE_VERSION => Err(NotReady::FloatMode),
        linked => Err(NotReady::InterfaceVersion(linked)),
    }
}

/// Which weight.
#[derive(Clone, Copy, Debug, PartialEq, Eq)]
pub enum Function {
    /// The weight of the density of states, I times the density: the letter 'I'.
    I,
    /// The weight of the number of states, J times that number: any other letter.
    J,
}

impl Function {
    fn letter(self) -> u8 {
        match self {
            Function::I => b'I',
            Function::J => b'J',
        }
    }
}

/// What a sheet is made of; `shape` may hold any numbers.
#[derive(Clone, Copy)]
pub struct Study<'a> {
    /// Its numbers.
    pub shape: Shape,
    /// Grid addresses, three numbers each (phono3py: `bz_grid.addresses`).
    pub addresses: &'a [i64],
    /// The grid-point map (phono3py: `bz_grid.gp_map`).
    pub gp_map: &'a [i64],
    /// The table of relative grid addresses, as [`relative_grid_address`] gives it.
    pub relative_grid_address: &'a [i64],
    /// Frequencies of the second point of a triplet, by address and band.
    pub frequencies1: &'a [f64],
    /// Frequencies of the third point of a triplet, by address and band.
    pub frequencies2: &'a [f64],
    /// Frequency points.
    pub frequency_points: &'a [f64],
    /// Triplets of grid points, three numbers each.
    pub triplets: &'a [i64],
}

/// Calls an entry on a study, and on what follows it.
macro_rules! on_study {
    ($f:ident, $y:expr, $($rest:expr),*) => {
        // SAFETY: the entry takes any values; each pair is a live slice, and what is written is borrowed `&mut`.
        told(unsafe {
            c::$f(
                $y.shape,
                $y.addresses.as_ptr(), $y.addresses.len(),
                $y.gp_map.as_ptr(), $y.gp_map.len(),
                $y.relative_grid_address.as_ptr(), $y.relative_grid_address.len(),
                $y.frequencies1.as_ptr(), $y.frequencies1.len(),
                $y.frequencies2.as_ptr(), $y.frequencies2.len(),
                $y.frequency_points.as_ptr(), $y.frequency_points.len(),
                $($rest),*
            )
        })
    };
}

/// Calls an entry on a study and a sheet, and on what follows them.
macro_rules! on_sheet {
    ($f:ident, $s:expr, $y:expr $(, $rest:expr)*) => {
        on_study!(
            $f, $y,
            $y.triplets.as_ptr(), $y.triplets.len(),
            $s.weights.as_mut_ptr(), $s.weights.len(),
            $s.flags.as_mut_ptr(), $s.flags.len(),
            $s.marks.as_mut_ptr(), $s.marks.len(),
            &mut $s.tally
            $(, $rest)*
        )
    };
}

/// Sixteen counts of accepted runs, repeats included: that of worker k in place k. A worker that is not 0 to 15 is refused by question 21, and
/// then a run or a carry-on that would not keep its worker's count below 2^63 by question 20; the other counts are not looked at.
pub type Tally = [u64; 16];

/// One call of a list.
#[derive(Clone, Copy, Debug)]
pub enum Call<'a> {
    /// [`Sheet::run_piece`]
    Run {
        /// who runs it, 0 to 15
        worker: i64,
        /// what is run
        piece: Piece,
    },
    /// [`Sheet::carry_on`]
    CarryOn {
        /// who carries on, 0 to 15
        worker: i64,
    },
    /// [`Sheet::average_triplet`]
    Average {
        /// the triplet, from 0
        triplet: i64,
        /// ids of the first bands
        ids1: &'a [i64],
        /// ids of the second bands
        ids2: &'a [i64],
    },
}

/// Of a call in a list: its answer, and the counts after it.
pub type Played = (Result<(), Refused>, Tally);

/// A list of calls as numbers, six a call, and the ids that it names by their places.
fn numbered(calls: &[Call]) -> (Vec<i64>, Vec<i64>) {
    let (mut list, mut ids) = (Vec::new(), Vec::new());
    for call in calls {
        list.extend(match *call {
            Call::Run { worker, piece: p } => [0, worker, p.triplet, p.b1, p.b2, 0],
            Call::CarryOn { worker } => [1, worker, 0, 0, 0, 0],
            Call::Average { triplet, ids1, ids2 } => {
                let start = ids.len();
                ids.extend(ids1.iter().chain(ids2));
                let middle = (start + ids1.len()) as i64;
                [2, triplet, start as i64, middle, middle, ids.len() as i64]
            }
        });
    }
    (list, ids)
}

/// The sheet of a study. It knows the study by its fingerprint, and the tally that it began with: see [`store`]. The calls on it do not
/// compare: give every one the study that the sheet was made for.
#[derive(Clone, Debug, PartialEq)]
pub struct Sheet {
    /// Weights, by channel, triplet, point, b1, b2.
    pub weights: Vec<f64>,
    /// Flags, by triplet, point, b1, b2.
    pub flags: Vec<i8>,
    /// Marks, by triplet, b1, b2: 0 open, 1 computed, 2 averaged.
    pub marks: Vec<u8>,
    /// How many runs of each worker were accepted, on the tally that the sheet began with.
    pub tally: Tally,
    began: Tally,
    study: [u8; 32],
    shape: store::Dimensions,
}

impl Sheet {
    /// A sheet of the study's size with every piece open. Numbers out of range give an empty one, which every call refuses.
    pub fn new(y: &Study) -> Sheet {
        Sheet::with_tally(y, [0; 16])
    }

    /// The same, beginning with a tally.
    pub fn with_tally(y: &Study, tally: Tally) -> Sheet {
        let shape = store::Dimensions::of(y);
        let [weights, flags, marks] = shape.lengths();
        Sheet { weights: vec![0.0; weights], flags: vec![0; flags], marks: vec![0; marks], tally, began: tally, study: store::fingerprint(y), shape }
    }

    /// The tally that the sheet began with, or had when it was last taken over.
    pub fn began(&self) -> Tally {
        self.began
    }

    /// Runs one piece: writes its weights and flags at every point and its mark, and counts it for the worker, 0 to 15.
    pub fn run_piece(&mut self, y: &Study, worker: i64, piece: Piece) -> Result<(), Refused> {
        on_sheet!(pelmetsavory_run_piece, self, y, worker, piece)
    }

    /// Runs every piece that is open, and counts them for the worker, 0 to 15.
    pub fn carry_on(&mut self, y: &Study, worker: i64) -> Result<(), Refused> {
        on_sheet!(pelmetsavory_carry_on, self, y, worker)
    }

    /// Averages a triplet whose pieces are all computed over its degenerate sets: each id is its own place or the id before it. It is no run: it
    /// names no worker, and every count stays.
    pub fn average_triplet(&mut self, y: &Study, triplet: i64, ids1: &[i64], ids2: &[i64]) -> Result<(), Refused> {
        on_sheet!(pelmetsavory_average_triplet, self, y, triplet, ids1.as_ptr(), ids1.len(), ids2.as_ptr(), ids2.len())
    }

    /// How many entries (point, b1, b2) of a triplet carry scattering: [`open_count`] of this sheet's weights, whatever marks and flags say.
    pub fn open_count(&self, y: &Study, triplet: i64) -> Result<u64, Refused> {
        let (num_triplets, num_band0) = (y.triplets.len() as i64 / 3, y.frequency_points.len() as i64);
        let counts = Counts { num_triplets, num_band0, num_band1: y.shape.num_band1, num_band2: y.shape.num_band2 };
        open_count(y.shape.tp_type, counts, &self.weights, triplet)
    }

    /// Plays a list of calls: of each its answer, and the counts after it. What a call asks is in its own answer, and the next call is made;
    /// what all of them ask is asked once. (An `Err` of the list itself would be 12, which cannot be here.)
    pub fn play(&mut self, y: &Study, calls: &[Call]) -> Result<Vec<Played>, Refused> {
        let (list, ids) = numbered(calls);
        let (mut answers, mut tallies) = (vec![0; calls.len()], vec![0; calls.len() * 16]);
        self.play_list(y, &list, &ids, &mut answers, &mut tallies)?;
        let after = tallies.chunks_exact(16).map(|counts| counts.try_into().unwrap());
        Ok(answers.into_iter().map(told).zip(after).collect())
    }

    /// The same by numbers, six a call: 0, worker, triplet, b1, b2 runs a piece; 1, worker carries on; any other kind averages a triplet, with
    /// the start and the end in `ids` of either id list. The counts after a call are sixteen numbers of `tallies`. An `Err` is 12: has the list
    /// six numbers, and `tallies` sixteen, for each of `answers`?
    pub fn play_list(&mut self, y: &Study, list: &[i64], ids: &[i64], answers: &mut [u64], tallies: &mut [u64]) -> Result<(), Refused> {
        on_sheet!(
            pelmetsavory_play, self, y, list.as_ptr(), list.len(), ids.as_ptr(), ids.len(),
            answers.as_mut_ptr(), answers.len(), tallies.as_mut_ptr(), tallies.len()
        )
    }
}

/// How many entries (point, b1, b2) of a triplet have a weight other than zero in some channel, of the weights of a whole sheet. Either zero is
/// zero, a NaN is not. Of a sheet: [`Sheet::open_count`].
pub fn open_count(tp_type: i64, counts: Counts, weights: &[f64], triplet: i64) -> Result<u64, Refused> {
    let mut count = 0;
    told(unsafe { c::pelmetsavory_open_count(tp_type, counts, weights.as_ptr(), weights.len(), triplet, &mut count) })?;
    Ok(count)
}

/// The weights and flags of all triplets.
pub fn integration_weight(y: &Study, weights: &mut [f64], flags: &mut [i8]) -> Result<(), Refused> {
    on_study!(pelmetsavory_integration_weight, y, y.triplets.as_ptr(), y.triplets.len(), weights.as_mut_ptr(), weights.len(), flags.as_mut_ptr(), flags.len())
}

/// The weights and flags of one triplet, any three grid points.
pub fn integration_weight_per_triplet(y: &Study, triplet: [i64; 3], weights: &mut [f64], flags: &mut [i8]) -> Result<(), Refused> {
    on_study!(pelmetsavory_integration_weight_per_triplet, y, Triple { numbers: triplet }, weights.as_mut_ptr(), weights.len(), flags.as_mut_ptr(), flags.len())
}

/// Averages one triplet's weights and flags in place.
pub fn average_weights_over_degenerate_sets(iw: &mut [f64], iw_zero: &mut [i8], ids1: &[i64], ids2: &[i64], num_band0: i64, num_band: i64, tp_type: i64) -> Result<(), Refused> {
    told(unsafe {
        c::pelmetsavory_average_weights_over_degenerate_sets(
            iw.as_mut_ptr(), iw.len(), iw_zero.as_mut_ptr(), iw_zero.len(),
            ids1.as_ptr(), ids1.len(), ids2.as_ptr(), ids2.len(), num_band0, num_band, tp_type,
        )
    })
}

/// A tested grid is one that a call takes: kind and mesh, addresses, map.
#[derive(Clone, Copy)]
pub struct BzGrid<'a> {
    /// Kind and mesh.
    pub grid: Grid,
    /// Grid addresses, three numbers each.
    pub addresses: &'a [i64],
    /// The grid-point map.
    pub gp_map: &'a [i64],
}

/// Frequencies of the irreducible points, row by row, and for each address its irreducible point.
#[derive(Clone, Copy)]
pub struct Irreducible<'a> {
    /// Frequencies, by irreducible point and band.
    pub frequencies: &'a [f64],
    /// Number of bands.
    pub num_band: i64,
    /// Number of irreducible points.
    pub num_ir: i64,
    /// Of each address its irreducible point.
    pub gp2irgp_map: &'a [i64],
}

/// Calls an entry for the weights at grid points.
macro_rules! at_grid_points {
    ($f:ident, $iw:expr, $points:expr, $table:expr, $grid_points:expr, $at:expr, $g:expr, $function:expr) => {
        // SAFETY: the entry takes any values; each pair is a live slice, and `iw` is borrowed `&mut`.
        told(unsafe {
            c::$f(
                $iw.as_mut_ptr(), $iw.len(), $points.as_ptr(), $points.len(), $table.as_ptr(), $table.len(),
                $grid_points.as_ptr(), $grid_points.len(), $at.frequencies.as_ptr(), $at.frequencies.len(), $at.num_band, $at.num_ir,
                $g.grid, $g.addresses.as_ptr(), $g.addresses.len(), $g.gp_map.as_ptr(), $g.gp_map.len(),
                $at.gp2irgp_map.as_ptr(), $at.gp2irgp_map.len(), $function.letter(),
            )
        })
    };
}

/// The weights of each band at each frequency point, for each grid point.
pub fn integration_weights_at_grid_points(iw: &mut [f64], points: &[f64], table: &[i64], grid_points: &[i64], at: Irreducible, g: BzGrid, function: Function) -> Result<(), Refused> {
    at_grid_points!(pelmetsavory_integration_weights_at_grid_points, iw, points, table, grid_points, at, g, function)
}

/// The weights of [`integration_weights_at_grid_points`], bit for bit, under a table that [`check_relative_grid_address`] accepts; any other is refused.
pub fn checked_integration_weights_at_grid_points(iw: &mut [f64], points: &[f64], table: &[i64], grid_points: &[i64], at: Irreducible, g: BzGrid, function: Function) -> Result<(), Refused> {
    at_grid_points!(pelmetsavory_checked_integration_weights_at_grid_points, iw, points, table, grid_points, at, g, function)
}

/// Accepts a table of the caller's in place of a built-in one where it has 24 rows, each with its first corner at zero, components from -2 to 2 and
/// determinant 1 or -1, which close around zero without gap or overlap. Otherwise 7, 23, 24 or 25.
///
/// ```
/// use pelmetsavory::{check_relative_grid_address, relative_grid_address, Refused};
/// let (mut table, _) = relative_grid_address(&[1., 0., 0., 0., 1., 0., 0., 0., 1.]).unwrap();
/// table.chunks_exact_mut(3).for_each(|corner| corner[1] += corner[0]); // a skew basis: one step along x is now one along x and one along y
/// assert_eq!(check_relative_grid_address(&table), Ok(()));
/// table.copy_within(..12, 12); // a row twice, and a gap
/// assert_eq!(check_relative_grid_address(&table), Err(Refused(24)));
/// ```
pub fn check_relative_grid_address(table: &[i64]) -> Result<(), Refused> {
    told(unsafe { c::pelmetsavory_check_relative_grid_address(table.as_ptr(), table.len()) })
}

/// Whether the three addresses of a triplet add to zero.
pub fn is_n(triplet: [i64; 3], addresses: &[i64]) -> Result<bool, Refused> {
    let mut normal = 0;
    told(unsafe { c::pelmetsavory_is_n(Triple { numbers: triplet }, addresses.as_ptr(), addresses.len(), &mut normal) })?;
    Ok(normal == 1)
}

/// Both copies of a table, one after the other.
pub fn set_relative_grid_address(out: &mut [i64], table: &[i64], tp_type: i64) -> Result<(), Refused> {
    told(unsafe { c::pelmetsavory_set_relative_grid_address(out.as_mut_ptr(), out.len(), table.as_ptr(), table.len(), tp_type) })
}

/// The neighbours of one grid point.
pub fn fill_neighboring_grid_points(out: &mut [i64], grid_point: i64, steps: &[i64], g: BzGrid) -> Result<(), Refused> {
    told(unsafe {
        c::pelmetsavory_fill_neighboring_grid_points(
            out.as_mut_ptr(), out.len(), grid_point, steps.as_ptr(), steps.len(),
            g.grid, g.addresses.as_ptr(), g.addresses.len(), g.gp_map.as_ptr(), g.gp_map.len(),
        )
    })
}

/// The neighbours of many grid points, those of each in turn.
pub fn neighboring_grid_points_many(out: &mut [i64], grid_points: &[i64], steps: &[i64], g: BzGrid) -> Result<(), Refused> {
    told(unsafe {
        c::pelmetsavory_neighboring_grid_points_many(
            out.as_mut_ptr(), out.len(), grid_points.as_ptr(), grid_points.len(), steps.as_ptr(), steps.len(),
            g.grid, g.addresses.as_ptr(), g.addresses.len(), g.gp_map.as_ptr(), g.gp_map.len(),
        )
    })
}

/// The grid index of an address.
pub fn grid_index_from_address(address: [i64; 3], d_diag: [i64; 3]) -> Result<i64, Refused> {
    let mut index = 0;
    told(unsafe { c::pelmetsavory_grid_index_from_address(Triple { numbers: address }, Triple { numbers: d_diag }, &mut index) })?;
    Ok(index)
}

/// The table whose main diagonal is shortest, the first on a tie, and its number. The columns of `rec_lattice` (which is given row by row) are
/// the edges of one cell of the mesh: column j is reciprocal basis vector j divided by mesh number j, as phono3py has it. A diagonal is
/// `rec_lattice` times 1,1,1 or -1,1,1 or 1,-1,1 or 1,1,-1: the three columns added, none or one of them negated.
pub fn relative_grid_address(rec_lattice: &[f64; 9]) -> Result<([i64; 288], usize), Refused> {
    let (mut table, mut index) = ([0; 288], 0);
    told(unsafe { c::pelmetsavory_relative_grid_address(rec_lattice, &mut table, &mut index) })?;
    Ok((table, index))
}

/// All four tables.
pub fn all_relative_grid_address() -> [i64; 1152] {
    let mut all = [0; 1152];
    unsafe { c::pelmetsavory_all_relative_grid_address(&mut all) };
    all
}

/// All four tables, made from the main diagonals: the six ways along three edges from end to end, each shifted to each of its four places. The rows
/// are those of [`all_relative_grid_address`], in another order, and so are corners 1 to 3. Sums depend on the order: never take these for weights
/// that are to agree in every bit.
pub fn generated_relative_grid_address() -> [i64; 1152] {
    let mut all = [0; 1152];
    unsafe { c::pelmetsavory_generated_relative_grid_address(&mut all) };
    all
}

/// One weight over directly given vertices, four a row.
pub fn tetrahedra_integration_weight(omega: f64, vertices: &[f64], function: Function) -> Result<f64, Refused> {
    let mut weight = 0.0;
    told(unsafe { c::pelmetsavory_tetrahedra_integration_weight(omega, vertices.as_ptr(), vertices.len(), function.letter(), &mut weight) })?;
    Ok(weight)
}

/// A lattice (row by row) times a whole vector.
pub fn matvec_di(a: &[f64; 9], b: [i64; 3]) -> Result<[f64; 3], Refused> {
    let mut product = [0.0; 3];
    told(unsafe { c::pelmetsavory_matvec_di(a, Triple { numbers: b }, &mut product) })?;
    Ok(product)
}

/// How many weights a triplet of a type has at a point of a band pair.
pub fn num_channels(tp_type: i64) -> Result<usize, Refused> {
    let mut channels = 0;
    told(unsafe { c::pelmetsavory_num_channels(tp_type, &mut channels) })?;
    Ok(channels)
}

/// Adds runs to the count of a worker, 0 to 15.
pub fn tally_add(tally: &mut Tally, worker: i64, runs: u64) -> Result<(), Refused> {
    told(unsafe { c::pelmetsavory_tally_add(tally, worker, runs) })
}

/// Fills the first frequency record, then the second, then the points with test frequencies that anyone can make again from the start. Any
/// lengths; nothing is refused. One chain goes over the three: x becomes (1664525 x + 1013904223) mod 2^32, and then the frequency is its upper
/// 16 bits divided by 4096.
///
/// ```
/// let (mut frequencies1, mut frequencies2, mut points) = ([0.0; 2], [0.0; 1], [0.0; 1]);
/// pelmetsavory::fill_frequencies(0, &mut frequencies1, &mut frequencies2, &mut points);
/// assert_eq!((frequencies1, frequencies2, points), ([3.77685546875, 4.45703125], [13.1123046875], [10.685791015625]));
/// ```
pub fn fill_frequencies(start: u32, frequencies1: &mut [f64], frequencies2: &mut [f64], frequency_points: &mut [f64]) {
    // SAFETY: the entry takes any start and any lengths; each pair is a live slice that is borrowed `&mut`.
    unsafe {
        c::pelmetsavory_fill_frequencies(
            start, frequencies1.as_mut_ptr(), frequencies1.len(), frequencies2.as_mut_ptr(), frequencies2.len(),
            frequency_points.as_mut_ptr(), frequency_points.len(),
        )
    }
}

/// What the program `weights` prints for the text of a study: its listing, which [`read_listing`] reads, or `refused`, a tab, the question's
/// number and a newline. Needs less than 1.25 MiB of stack.
pub fn answer(text: &[u8]) -> Vec<u8> {
    let mut out = Box::new([0; 118617]);
    // SAFETY: a live slice, and an array of the entry's length that nothing else holds.
    let length = unsafe { c::pelmetsavory_answer(text.as_ptr(), text.len(), &mut *out) };
    out[..length].to_vec()
}

/// Restores the weights (by channel, triplet, point, b1, b2) and flags of a listing, as [`answer`] gives it, of a type and counts. Every bit comes
/// back; a NaN comes back as a NaN, its sign and payload are not in the listing. Any other text is refused by question 22, and nothing is written. The lengths
/// are those of a sheet: triplets times points times bands flags, and [`num_channels`] times as many weights.
///
/// ```
/// use pelmetsavory::{read_listing, Counts, Refused};
/// let listing = b"triplet\tpoint\tb1\tb2\tflag\tw\n0\t0\t0\t0\t0\t3fd8000000000000\n0\t1\t0\t0\t1\t0000000000000000\n";
/// let counts = Counts { num_triplets: 1, num_band0: 2, num_band1: 1, num_band2: 1 };
/// let (mut weights, mut flags) = ([7.0; 2], [7; 2]);
/// assert_eq!(read_listing(&listing[1..], 4, counts, &mut weights, &mut flags), Err(Refused(22)));
/// assert_eq!((weights, flags), ([7.0; 2], [7; 2]));
/// read_listing(listing, 4, counts, &mut weights, &mut flags).unwrap();
/// assert_eq!((weights, flags), ([0.375, 0.0], [0, 1]));
/// ```
pub fn read_listing(listing: &[u8], tp_type: i64, counts: Counts, weights: &mut [f64], flags: &mut [i8]) -> Result<(), Refused> {
    told(unsafe {
        c::pelmetsavory_read_listing(
            listing.as_ptr(), listing.len(), tp_type, counts,
            weights.as_mut_ptr(), weights.len(), flags.as_mut_ptr(), flags.len(),
        )
    })
}
