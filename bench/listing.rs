//! A sheet's listing, printed plainly, and read back by the library.
use crate::calls;
use crate::load::Load;
use crate::study::Sheet;
use std::io::Write;

fn counts(l: &Load) -> [usize; 4] {
    let y = &l.study;
    let [b1, b2] = y.bands;
    [y.count(), y.points.len(), b1 as usize, b2 as usize]
}

/// The listing of a sheet as document 01 has it.
pub fn print(l: &Load, s: &Sheet) -> Vec<u8> {
    let [_, points, b1, b2] = counts(l);
    let mut out = b"triplet\tpoint\tb1\tb2\tflag\tw\n".to_vec();
    for (e, flag) in s.flags.iter().enumerate() {
        let (row, cell) = (e / b2, e % b2);
        let (t, p) = (row / b1 / points, row / b1 % points);
        write!(out, "{t}\t{p}\t{}\t{cell}\t{flag}", row % b1).unwrap();
        for w in s.weights[e..].iter().step_by(s.flags.len()) {
            write!(out, "\t{:016x}", w.to_bits()).unwrap();
        }
        out.push(b'\n');
    }
    out
}

/// The listing read back into a sheet.
#[inline(never)]
pub fn read(l: &Load, text: &[u8], s: &mut Sheet) {
    let no = status(l, text, s);
    assert!(no == 0, "refused {no}");
}

/// The call's answer.
pub fn status(l: &Load, text: &[u8], s: &mut Sheet) -> u64 {
    let counts = counts(l).map(|n| n as i64);
    calls::read_listing(text, l.study.tp, counts, &mut s.weights, &mut s.flags)
}
