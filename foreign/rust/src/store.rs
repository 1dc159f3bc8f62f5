//! Storing sheets, and taking over what a worker's sheet has computed. Plain Rust, not proved. The file's format is in foreign/README.md;
//! C, Rust and Python write the same bytes. What is wrong is found before anything is written: after an error the sheets are as they were.

use crate::sha256::{sha256, Sha256};
use crate::{num_channels, tally_add, Refused, Sheet, Study, Tally};
use std::{fmt, fs, io, path::Path, path::PathBuf};

const MAGIC: &[u8; 8] = b"PELSHEET";
const FORMAT: u64 = 2;
const BEGAN: usize = 88;
const TALLY: usize = 216;
const HEAD: usize = 344;
const DIGEST: usize = 32;

/// Why a sheet was not stored, not read or not taken over.
#[derive(Debug)]
pub enum Error {
    /// The file could not be read or written.
    File(io::Error),
    /// The file is not a stored sheet.
    NotASheet,
    /// The stored sheet has this format version, and not 2.
    Version(u64),
    /// The stored sheet is cut short or too long.
    Length,
    /// The stored sheet is damaged: its checksum is not right.
    Checksum,
    /// The sheet is of another study.
    Study,
    /// The sheet has another shape than the study's.
    Shape,
    /// In the worker's sheet the count of this worker is below the one that the sheet began with.
    Tally(usize),
    /// The worker has averaged this triplet, which is not averaged here.
    Averaged(usize),
    /// A question is answered no: 13 (the marks) or 20 (a count of the tally).
    Refused(Refused),
}

impl fmt::Display for Error {
    fn fmt(&self, f: &mut fmt::Formatter) -> fmt::Result {
        match self {
            Error::File(e) => write!(f, "the file could not be read or written: {e}"),
            Error::NotASheet => f.write_str("the file is not a stored sheet"),
            Error::Version(n) => write!(f, "the stored sheet has format version {n}, and not {FORMAT}"),
            Error::Length => f.write_str("the stored sheet is cut short or too long"),
            Error::Checksum => f.write_str("the stored sheet is damaged: its checksum is not right"),
            Error::Study => f.write_str("the sheet is of another study"),
            Error::Shape => f.write_str("the sheet has another shape than the study's"),
            Error::Tally(k) => write!(f, "the worker's sheet is damaged: its count of worker {k} is below the one that it began with"),
            Error::Averaged(t) => write!(f, "the worker has averaged triplet {t}, which is not averaged here"),
            Error::Refused(e) => e.fmt(f),
        }
    }
}

impl std::error::Error for Error {
    fn source(&self) -> Option<&(dyn std::error::Error + 'static)> {
        match self {
            Error::File(e) => Some(e),
            Error::Refused(e) => Some(e),
            _ => None,
        }
    }
}

impl From<io::Error> for Error {
    fn from(e: io::Error) -> Error {
        Error::File(e)
    }
}

impl From<Refused> for Error {
    fn from(e: Refused) -> Error {
        Error::Refused(e)
    }
}

/// A record of the fingerprint: how many elements, and those, of eight bytes.
fn add_record<T: Copy>(s: &mut Sha256, elements: &[T], bytes: fn(T) -> [u8; 8]) {
    s.add(&(elements.len() as u64).to_le_bytes());
    elements.iter().for_each(|x| s.add(&bytes(*x)));
}

/// The fingerprint of a study: SHA-256 of all its numbers and arrays. Reads all of it.
pub fn fingerprint(y: &Study) -> [u8; 32] {
    let (n, mut s) = (y.shape, Sha256::new());
    s.add(b"pelmetsavory study 1\n");
    add_record(&mut s, &[n.bz_grid_type, n.d_diag[0], n.d_diag[1], n.d_diag[2], n.tp_type, n.num_band1, n.num_band2], i64::to_le_bytes);
    for whole in [y.addresses, y.gp_map, y.relative_grid_address] {
        add_record(&mut s, whole, i64::to_le_bytes);
    }
    for real in [y.frequencies1, y.frequencies2, y.frequency_points] {
        add_record(&mut s, real, f64::to_le_bytes);
    }
    add_record(&mut s, y.triplets, i64::to_le_bytes);
    s.end()
}

/// The shape of a sheet: channels, triplets, points, b1, b2.
#[derive(Clone, Copy, Debug, Default, PartialEq)]
pub(crate) struct Dimensions([u64; 5]);

impl Dimensions {
    /// Of a study's sheet. A number that question 8 or 9 refuses counts as 0.
    pub(crate) fn of(y: &Study) -> Dimensions {
        let up_to = |most: u64, n: u64| if n <= most { n } else { 0 };
        let bands = |n: i64| up_to(64, n as u64);
        let (channels, triplets) = (num_channels(y.shape.tp_type).unwrap_or(0) as u64, y.triplets.len() as u64 / 3);
        Dimensions([channels, up_to(65536, triplets), up_to(1024, y.frequency_points.len() as u64), bands(y.shape.num_band1), bands(y.shape.num_band2)])
    }

    fn pairs(self) -> usize {
        (self.0[3] * self.0[4]) as usize
    }

    fn points(self) -> usize {
        self.0[2] as usize
    }

    /// How long weights, flags, marks and the file are. Numbers from a file may be any: what is too large stays the largest.
    fn sizes(self) -> [u64; 4] {
        let [channels, triplets, points, b1, b2] = self.0;
        let marks = triplets.saturating_mul(b1.saturating_mul(b2));
        let flags = marks.saturating_mul(points);
        let weights = flags.saturating_mul(channels);
        [weights, flags, marks, weights.saturating_mul(8).saturating_add(flags).saturating_add(marks).saturating_add((HEAD + DIGEST) as u64)]
    }

    pub(crate) fn lengths(self) -> [usize; 3] {
        let [weights, flags, marks, _] = self.sizes();
        [weights as usize, flags as usize, marks as usize]
    }

    /// Question 13, of marks that have this shape's length.
    fn sound(self, marks: &[u8]) -> Result<(), Refused> {
        let one_triplet = |m: &[u8]| m.iter().all(|x| *x <= 2 && (*x == 2) == (m[0] == 2));
        if marks.chunks(self.pairs().max(1)).all(one_triplet) {
            Ok(())
        } else {
            Err(Refused(13))
        }
    }
}

fn number_at(bytes: &[u8], at: usize) -> u64 {
    u64::from_le_bytes(bytes[at..at + 8].try_into().unwrap())
}

fn tally_at(bytes: &[u8], at: usize) -> Tally {
    std::array::from_fn(|k| number_at(bytes, at + 8 * k))
}

/// The shape that the bytes of a whole and undamaged file have.
fn undamaged(bytes: &[u8]) -> Result<Dimensions, Error> {
    if bytes.len() < 16 || !bytes.starts_with(MAGIC) {
        return Err(Error::NotASheet);
    }
    if number_at(bytes, 8) != FORMAT {
        return Err(Error::Version(number_at(bytes, 8))); // another format has another head
    }
    if bytes.len() < HEAD + DIGEST {
        return Err(Error::Length);
    }
    let shape = Dimensions([48, 56, 64, 72, 80].map(|at| number_at(bytes, at)));
    if bytes.len() as u64 != shape.sizes()[3] {
        return Err(Error::Length);
    }
    let (content, digest) = bytes.split_at(bytes.len() - DIGEST);
    if sha256(content) != digest {
        return Err(Error::Checksum);
    }
    Ok(shape)
}

/// The file that a process writes before it takes the place of the one at `path`.
fn draft_of(path: &Path) -> PathBuf {
    let mut name = path.as_os_str().to_owned();
    name.push(format!(".{}", std::process::id()));
    name.into()
}

impl Sheet {
    fn fits(&self) -> Result<(), Error> {
        if [self.weights.len(), self.flags.len(), self.marks.len()] == self.shape.lengths() {
            Ok(())
        } else {
            Err(Error::Shape)
        }
    }

    /// The bytes of the stored sheet.
    pub fn to_bytes(&self) -> Result<Vec<u8>, Error> {
        self.fits()?;
        let mut out = Vec::with_capacity(self.shape.sizes()[3] as usize);
        out.extend(MAGIC);
        out.extend(FORMAT.to_le_bytes());
        out.extend(self.study);
        out.extend(self.shape.0.iter().flat_map(|n| n.to_le_bytes()));
        out.extend(self.began.iter().chain(&self.tally).flat_map(|n| n.to_le_bytes()));
        out.extend(self.weights.iter().flat_map(|w| w.to_le_bytes()));
        out.extend(self.flags.iter().map(|f| *f as u8));
        out.extend(&self.marks);
        out.extend(sha256(&out));
        Ok(out)
    }

    /// The sheet of the study that is stored in these bytes.
    pub fn from_bytes(y: &Study, bytes: &[u8]) -> Result<Sheet, Error> {
        let (shape, study) = (undamaged(bytes)?, fingerprint(y));
        if bytes[16..48] != study {
            return Err(Error::Study);
        }
        if shape != Dimensions::of(y) {
            return Err(Error::Shape);
        }
        let [weights, flags, _] = shape.lengths();
        let (w, rest) = bytes[HEAD..bytes.len() - DIGEST].split_at(weights * 8);
        let (f, marks) = rest.split_at(flags);
        shape.sound(marks)?;
        Ok(Sheet {
            weights: w.chunks_exact(8).map(|b| f64::from_le_bytes(b.try_into().unwrap())).collect(),
            flags: f.iter().map(|b| *b as i8).collect(),
            marks: marks.to_vec(),
            tally: tally_at(bytes, TALLY),
            began: tally_at(bytes, BEGAN),
            study,
            shape,
        })
    }

    /// Stores the sheet: writes `path` with `.` and the process's number first, and renames it, so that a reader finds the old sheet or the
    /// new one whole. A process that is killed may leave that first file.
    pub fn save(&self, path: &Path) -> Result<(), Error> {
        let (bytes, draft) = (self.to_bytes()?, draft_of(path));
        let done = fs::write(&draft, bytes).and_then(|()| fs::rename(&draft, path));
        if done.is_err() {
            let _ = fs::remove_file(&draft);
        }
        Ok(done?)
    }

    /// Reads a stored sheet of the study.
    pub fn load(y: &Study, path: &Path) -> Result<Sheet, Error> {
        Sheet::from_bytes(y, &fs::read(path)?)
    }

    /// Takes over the pieces that a worker's sheet of the same study has computed and this one has open: their weights, flags and marks.
    /// Each of the sixteen counts grows by what that count has grown in the worker's sheet since it began, repeats included. Question 20 is
    /// asked of the counts that grow alone: one that is full and idle, in either sheet, keeps nobody from taking over. The worker's sheet then
    /// counts as taken: it begins with its tally, and taking it again adds nothing.
    pub fn take(&mut self, worker: &mut Sheet) -> Result<(), Error> {
        let tally = self.tally_with(worker)?;
        let (points, pairs, cells) = (self.shape.points(), self.shape.pairs(), self.flags.len());
        for p in (0..self.marks.len()).filter(|&p| worker.marks[p] == 1) {
            if self.marks[p] != 0 {
                continue;
            }
            for point in 0..points {
                let at = (p / pairs * points + point) * pairs + p % pairs;
                self.flags[at] = worker.flags[at];
                for place in (at..self.weights.len()).step_by(cells) {
                    self.weights[place] = worker.weights[place];
                }
            }
            self.marks[p] = 1;
        }
        self.tally = tally;
        worker.began = worker.tally;
        Ok(())
    }

    /// The tally after a worker's sheet is taken over, where nothing keeps it from that.
    fn tally_with(&self, worker: &Sheet) -> Result<Tally, Error> {
        if self.study != worker.study {
            return Err(Error::Study);
        }
        if self.shape != worker.shape {
            return Err(Error::Shape);
        }
        self.fits()?;
        worker.fits()?;
        self.shape.sound(&self.marks)?;
        self.shape.sound(&worker.marks)?;
        if let Some(p) = (0..self.marks.len()).find(|&p| worker.marks[p] == 2 && self.marks[p] != 2) {
            return Err(Error::Averaged(p / self.shape.pairs()));
        }
        if let Some(k) = (0..16).find(|&k| worker.tally[k] < worker.began[k]) {
            return Err(Error::Tally(k));
        }
        let mut tally = self.tally;
        for k in (0..16).filter(|&k| worker.tally[k] > worker.began[k]) {
            tally_add(&mut tally, k as i64, worker.tally[k] - worker.began[k])?;
        }
        Ok(tally)
    }
}
