//! Storing and taking over: what comes back, and each refusal, which leaves every sheet as it was.
mod small;
use pelmetsavory::{store::fingerprint, store::Error, Refused, Sheet, Study};
use small::{all_of, filled, piece_at, plus, Small, BEGUN};
use std::{fs, path::PathBuf, process};

const IDS1: [i64; 3] = [0, 0, 2];
const IDS2: [i64; 3] = [0, 1, 1];
const TOP: u64 = i64::MAX as u64;
const BEGAN_AT: usize = 88;
const TALLY_AT: usize = 216;
const HEAD: usize = 344;
const MARKS_AT: usize = HEAD + 405 * 8 + 135;
const FILE_BYTES: usize = MARKS_AT + 27 + 32;

fn place(name: &str) -> PathBuf {
    std::env::temp_dir().join(format!("pelmetsavory.{name}.{}", process::id()))
}

/// An error, and one of those that have words.
fn is(error: Result<impl Sized, Error>, want: &str) {
    let error = error.err().unwrap_or_else(|| panic!("taken, not {want}"));
    assert!(format!("{error:?}").starts_with(want), "{error:?}, not {want}");
    assert!(error.to_string().len() > 20);
}

/// The study with one number or one element of one array changed, or an array one triple shorter, in turn.
fn each_other_study(y: &Study, mut with: impl FnMut(&Study)) {
    for k in 0..7 {
        let mut b = *y;
        let n = &mut b.shape;
        *[&mut n.bz_grid_type, &mut n.tp_type, &mut n.num_band1, &mut n.num_band2].into_iter().chain(&mut n.d_diag).nth(k).unwrap() += 1;
        with(&b);
    }
    fn last<T: Copy>(from: &[T], change: fn(T) -> T) -> Vec<T> {
        let mut to = from.to_vec();
        *to.last_mut().unwrap() = change(from[from.len() - 1]);
        to
    }
    let wholes = [y.addresses, y.gp_map, y.relative_grid_address, y.triplets].map(|a| last(a, |x| x ^ 1));
    let floats = [y.frequencies1, y.frequencies2, y.frequency_points].map(|a| last(a, |x| -x));
    with(&Study { addresses: &wholes[0], ..*y });
    with(&Study { gp_map: &wholes[1], ..*y });
    with(&Study { relative_grid_address: &wholes[2], ..*y });
    with(&Study { triplets: &wholes[3], ..*y });
    with(&Study { frequencies1: &floats[0], ..*y });
    with(&Study { frequencies2: &floats[1], ..*y });
    with(&Study { frequency_points: &floats[2], ..*y });
    with(&Study { addresses: &y.addresses[3..], ..*y });
    with(&Study { triplets: &y.triplets[..3], ..*y });
}

#[test]
fn a_stored_sheet_comes_back_or_is_refused() {
    let small = Small::new();
    let (y, path) = (small.study(), place("store"));
    let mut s = filled(&y, -7.25, 5, BEGUN);
    (0..12).for_each(|k| s.run_piece(&y, if k < 8 { k as i64 } else { 15 }, piece_at(k)).unwrap());
    s.average_triplet(&y, 0, &IDS1, &IDS2).unwrap();

    // what is stored comes back, and no other file stays
    s.save(&path).unwrap();
    let good = s.to_bytes().unwrap();
    assert!(good.len() == FILE_BYTES && fs::read(&path).unwrap() == good);
    assert!(!place(&format!("store.{}", process::id())).exists());
    let back = Sheet::load(&y, &path).unwrap();
    let ones: Vec<(usize, u64)> = (0..8).map(|k| (k, 1)).collect();
    assert!(all_of(&back) == all_of(&s) && back == s && (back.tally, back.began()) == (plus(plus(BEGUN, &ones), &[(15, 4)]), BEGUN));
    assert!(back.to_bytes().unwrap() == good);

    // no stored sheet, another version, cut, longer, damaged at any byte
    let refused = |bytes: &[u8], want: &str| {
        fs::write(&path, bytes).unwrap();
        is(Sheet::load(&y, &path), want);
    };
    let seal = |content: &[u8]| {
        fs::write(&path, content).unwrap();
        let digest = process::Command::new("sha256sum").arg(&path).output().unwrap().stdout;
        let hex = std::str::from_utf8(&digest[..64]).unwrap();
        let bytes: Vec<u8> = (0..32).map(|k| u8::from_str_radix(&hex[2 * k..2 * k + 2], 16).unwrap()).collect();
        [content, &bytes].concat()
    };
    let edited = |edits: &[(usize, u8)]| {
        let mut bytes = good[..FILE_BYTES - 32].to_vec();
        edits.iter().for_each(|&(at, byte)| bytes[at] = byte);
        seal(&bytes)
    };
    let sealed = |edits: &[(usize, u8)], want: &str| refused(&edited(edits), want);
    is(Sheet::load(&y, &place("none")), "File");
    refused(&[], "NotASheet");
    refused(&good[..15], "NotASheet");
    sealed(&[(7, 0)], "NotASheet");
    sealed(&[(8, 1)], "Version(1)");
    sealed(&[(8, 3)], "Version(3)");
    let mut first = [&edited(&[(8, 1)])[..96], &good[TALLY_AT..TALLY_AT + 8], &good[HEAD..FILE_BYTES - 32]].concat(); // format 1: one count, of 8 bytes
    refused(&seal(&first), "Version(1)");
    first[56..64].fill(0);
    refused(&seal(&first[..104]), "Version(1)");
    refused(&good[..16], "Length");
    refused(&good[..375], "Length");
    refused(&good[..376], "Length");
    refused(&good[..FILE_BYTES - 1], "Length");
    refused(&[&good[..], &[0]].concat(), "Length");
    sealed(&(48..88).map(|at| (at, 0xff)).collect::<Vec<_>>(), "Length");
    for k in 0..FILE_BYTES {
        let mut bytes = good.clone();
        bytes[k] ^= 0x10;
        let want = match k {
            0..=7 => "NotASheet",
            8..=15 => "Version",
            48..=87 => "Length",
            _ => "Checksum",
        };
        is(Sheet::from_bytes(&y, &bytes), want);
    }

    // each count in its own place, any number
    for k in 0..32 {
        let at = BEGAN_AT + 8 * k;
        let v = Sheet::from_bytes(&y, &edited(&(at..at + 8).map(|at| (at, 0xff)).collect::<Vec<_>>())).unwrap();
        let mut counts = [s.began(), s.tally].concat();
        counts[k] = u64::MAX;
        assert_eq!([v.began(), v.tally].concat(), counts);
    }

    // another study, by each of its numbers and arrays; another shape; marks that are not sound
    s.save(&path).unwrap();
    each_other_study(&y, |other| {
        assert!(fingerprint(other) != fingerprint(&y));
        is(Sheet::load(other, &path), "Study");
    });
    sealed(&[(72, 9), (80, 1)], "Shape");
    sealed(&[(MARKS_AT + 26, 3)], "Refused(Refused(13))");
    sealed(&[(MARKS_AT + 26, 2)], "Refused(Refused(13))");
    sealed(&[(MARKS_AT, 1)], "Refused(Refused(13))");

    // a sheet that is not the study's size, a place that cannot be written; the file of a refused save stays
    s.save(&path).unwrap();
    let mut shorter = s.clone();
    shorter.flags.pop();
    is(shorter.save(&path), "Shape");
    is(s.save(&path.join("none")), "File");
    assert!(fs::read(&path).unwrap() == good);
    fs::remove_file(&path).unwrap();
    fs::create_dir(&path).unwrap();
    is(s.save(&path), "File");
    fs::remove_dir(&path).unwrap();
    assert!(!place(&format!("store.{}", process::id())).exists());

    // no triplets is a sheet too
    let none = Study { triplets: &[], ..y };
    let mut empty = Sheet::with_tally(&none, BEGUN);
    empty.tally[4] = 5;
    empty.save(&path).unwrap();
    let back = Sheet::load(&none, &path).unwrap();
    assert!(fs::metadata(&path).unwrap().len() == 376 && (back.tally, back.began()) == (empty.tally, BEGUN));
    fs::remove_file(path).unwrap();
}

/// A take that is refused leaves both sheets as they were.
fn not_taken(s: &mut Sheet, w: &mut Sheet, want: &str) {
    let before = (all_of(s), all_of(w));
    is(s.take(w), want);
    assert!(before == (all_of(s), all_of(w)));
}

#[test]
fn a_worker_is_taken_over_or_refused() {
    let small = Small::new();
    let y = small.study();
    let mut counts: [u64; 16] = std::array::from_fn(|k| 7 + k as u64);
    counts[14] = u64::MAX; // full, and idle
    let (mut s, mut w, mut one) = (filled(&y, -7.25, 5, BEGUN), filled(&y, 0.5, 3, counts), filled(&y, -7.25, 5, BEGUN));
    s.run_piece(&y, 0, piece_at(0)).unwrap();
    [(3, 0), (3, 1), (3, 2), (15, 2)].into_iter().for_each(|(worker, k)| w.run_piece(&y, worker, piece_at(k)).unwrap());

    // another study, another shape, unsound marks, an average of the worker, a count that went back, one at the top
    each_other_study(&y, |other| {
        let mut v = Sheet::new(other);
        not_taken(&mut s, &mut v, "Study");
        not_taken(&mut v, &mut w, "Study");
    });
    for cut in [|x: &mut Sheet| drop(x.weights.pop()), |x: &mut Sheet| drop(x.flags.pop()), |x: &mut Sheet| drop(x.marks.pop())] {
        let (mut short, mut worker) = (s.clone(), w.clone());
        cut(&mut short);
        cut(&mut worker);
        not_taken(&mut short, &mut w, "Shape");
        not_taken(&mut s, &mut worker, "Shape");
    }
    for mark in [3, 2, 0] {
        s.marks[20] = mark;
        if mark > 0 {
            not_taken(&mut s, &mut w, "Refused(Refused(13))");
        }
    }
    for mark in [3, 2, 0] {
        w.marks[20] = mark;
        if mark > 0 {
            not_taken(&mut s, &mut w, "Refused(Refused(13))");
        }
    }
    w.marks[18..].fill(2);
    not_taken(&mut s, &mut w, "Averaged(2)");
    w.marks[18..].fill(0);
    let (before, counts) = (s.tally, w.tally);
    for k in 0..16 {
        w.tally[k] = w.began()[k] - 1;
        not_taken(&mut s, &mut w, &format!("Tally({k})"));
        s.tally[3] = TOP;
        not_taken(&mut s, &mut w, &format!("Tally({k})"));
        (s.tally, w.tally) = (before, counts);
    }
    // worker 3 grows by 3; 15 is the last one: the others are not changed before
    for (worker, tally) in [(3, TOP - 2), (3, TOP), (3, TOP + 1), (3, u64::MAX), (15, TOP), (15, TOP + 1), (15, u64::MAX)] {
        s.tally[worker] = tally;
        not_taken(&mut s, &mut w, "Refused(Refused(20))");
        s.tally = before;
    }
    w.tally[6] = u64::MAX;
    not_taken(&mut s, &mut w, "Refused(Refused(20))");
    w.tally = counts;

    // what is open here is taken over, what is not stays; repeats are counted; taking it again adds nothing
    (w.weights[0], w.flags[0]) = (99.0, 99); // of piece 0, which this sheet has
    s.take(&mut w).unwrap();
    (0..3).for_each(|k| one.run_piece(&y, 0, piece_at(k)).unwrap());
    one.tally = plus(before, &[(3, 3), (15, 1)]);
    assert!(all_of(&s) == all_of(&one) && w.began() == counts && w.tally == counts);
    s.take(&mut w).unwrap();
    assert!(all_of(&s) == all_of(&one));

    // a triplet that is averaged here takes nothing over, and the worker's runs count; the counts that do not grow are full, and are not asked
    (3..9).for_each(|k| s.run_piece(&y, 1, piece_at(k)).unwrap());
    s.average_triplet(&y, 0, &IDS1, &IDS2).unwrap();
    let mut before = all_of(&s);
    for full in [TOP, TOP + 1, u64::MAX] {
        w.run_piece(&y, 5, piece_at(1)).unwrap();
        s.tally = [full; 16];
        s.tally[5] = TOP - 1;
        before.3 = plus(s.tally, &[(5, 1)]);
        s.take(&mut w).unwrap();
        assert!(all_of(&s) == before);
        s.take(&mut w).unwrap(); // nothing grows: nothing is asked
        assert!(all_of(&s) == before);
    }

    // and an average of both is no hindrance
    w.marks[..9].fill(2);
    s.take(&mut w).unwrap();
    assert!(all_of(&s) == before);
    assert_eq!(Error::from(Refused(20)).to_string(), Refused(20).to_string());
}
