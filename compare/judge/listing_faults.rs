//! Calls that read a listing, with faults of the text and of what is asked before it.
use crate::asks::CHANNELS;
use crate::listings::{HEADER, NAN};
use crate::rng::Rng;
use crate::sheets::{length, spoil_counts};
use crate::studies::{other_length, spoiled_type};
use std::ops::Range;

/// A call's text, its type and counts, and the lengths of its buffers.
pub struct Call {
    pub text: Vec<u8>,
    pub tp: i64,
    pub counts: [i64; 4],
    pub rooms: [usize; 2],
}

/// Where a line lies, without its newline: often the last, or the header.
fn some_line(r: &mut Rng, t: &[u8]) -> Range<usize> {
    let at = match r.below(8) {
        0 | 1 => t.len() - 1,
        2 => 0,
        _ => r.below(t.len()),
    };
    let newline = |b: &u8| *b == b'\n';
    let start = t[..at].iter().rposition(newline).map_or(0, |k| k + 1);
    let end = t[at..].iter().position(newline);
    start..end.map_or(t.len(), |k| at + k)
}

/// A line with other fields.
fn by_fields(r: &mut Rng, t: &mut Vec<u8>, change: impl FnOnce(&mut Rng, &mut Vec<Vec<u8>>)) {
    let at = some_line(r, t);
    let line = t[at.clone()].split(|b| *b == b'\t');
    let mut fields: Vec<Vec<u8>> = line.map(<[u8]>::to_vec).collect();
    change(r, &mut fields);
    t.splice(at, fields.join(&b'\t'));
}

/// The text of other lines, each with its newline.
fn by_lines(t: &mut Vec<u8>, change: impl FnOnce(&mut Vec<&[u8]>)) {
    let old = std::mem::take(t);
    let mut lines: Vec<&[u8]> = old.split_inclusive(|b| *b == b'\n').collect();
    change(&mut lines);
    *t = lines.concat();
}

fn put(t: &mut Vec<u8>, text: &[u8]) {
    *t = text.to_vec();
}

/// One of some texts, which bars part.
fn one_of(r: &mut Rng, of: &str) -> Vec<u8> {
    let all: Vec<&str> = of.split('|').collect();
    r.pick(&all).as_bytes().to_vec()
}

/// A weight's field of a line; its last field where there is none.
fn own_field<'a>(r: &mut Rng, fields: &'a mut [Vec<u8>]) -> &'a mut Vec<u8> {
    let last = fields.len() - 1;
    let first = last.min(5);
    &mut fields[first + r.below(last - first + 1)]
}

/// One of the four numbers of a line; its last field where there are fewer.
fn place_field<'a>(r: &mut Rng, fields: &'a mut [Vec<u8>]) -> &'a mut Vec<u8> {
    let k = r.below(4).min(fields.len() - 1);
    &mut fields[k]
}

const FLAGS: &str = "2|-1|00|+0|01|+1|-0|| 0|0 |10|11|9|a|f|\0|\x01|255|256|257|4294967296|\
    18446744073709551616|18446744073709551617|0.0|0x0";
const NUMBERS: &str = "|00|a|9223372036854775807|-9223372036854775808|1e0|\0";
const HEADERS: &str = "triplet point b1 b2 flag w|\
    Triplet\tpoint\tb1\tb2\tflag\tw|\
    triplet\tpoint\tb1\tb2\tflag\tW|\
    triplet\tpoint\tb2\tb1\tflag\tw|\
    point\ttriplet\tb1\tb2\tflag\tw|\
    triplet\tpoint\tb1\tb2\tflag|\
    triplet\tpoint\tb1\tb2\tflag\t|\
    triplet\tpoint\tb1\tb2\tflag\tw\t|\
    triplet\tpoint\tb1\tb2\tflag\tw\tw|\
    triplet\tpoint\tb1\tb2\tflag\tw0\tw1|\
    triplet\tpoint\tband1\tband2\tflag\tweight|\
    \ttriplet\tpoint\tb1\tb2\tflag\tw|\
    triplet\tpoint\tb1\tb2\tflags\tw|\
    triplet\tpoint\tb1\tb2\tflbg\tw|\
    triplet\tpoint\tb1\tb2\tflag\tw\r|\
    # triplet\tpoint\tb1\tb2\tflag\tw|\
    0\t0\t0\t0\t0\t0000000000000000|";
const DIGITS: &[u8] = b"0123456789abcdef";
/// What may stand in the place of a byte.
const BYTES: &[u8] = b"\t\n\r 0123456789abcdefABCDEFgx+-.\0\x01\x7f\x80\xff";

fn capitals(r: &mut Rng, c: &mut Call) {
    if r.one_in(4) {
        return c.text.make_ascii_uppercase();
    }
    by_fields(r, &mut c.text, |r, fields| {
        let own = own_field(r, fields);
        let letters = own.iter().filter(|b| b.is_ascii_lowercase()).count();
        // a letter, all of them, or a digit where there is none
        if letters == 0 && !own.is_empty() {
            let k = r.below(own.len());
            own[k] = b'A' + r.below(6) as u8;
        } else if r.one_in(2) {
            own.make_ascii_uppercase();
        } else if let Some(b) = own.iter_mut().find(|b| b.is_ascii_lowercase()) {
            b.make_ascii_uppercase();
        }
    });
}

fn other_flag(r: &mut Rng, c: &mut Call) {
    let flags = if r.one_in(2) { "2|-1|00|+0" } else { FLAGS };
    by_fields(r, &mut c.text, |r, fields| {
        let k = fields.len().min(5) - 1;
        fields[k] = one_of(r, flags);
    });
}

fn spaces(r: &mut Rng, c: &mut Call) {
    let t = &mut c.text;
    let tab = |b: &u8| *b == b'\t';
    let blank = |b: &mut u8| *b = if *b == b'\t' { b' ' } else { *b };
    match r.below(4) {
        0 => t.iter_mut().for_each(blank),
        1 => {
            let at = some_line(r, t);
            t[at].iter_mut().for_each(blank);
        }
        2 => {
            if let Some(k) = t.iter().rposition(tab) {
                t[k] = r.pick(b" \n,;\0");
            }
        }
        _ => {
            let from = r.below(t.len());
            if let Some(k) = t[from..].iter().position(tab) {
                t.splice(from + k..=from + k, one_of(r, " |  |\t\t| \t|\t |"));
            }
        }
    }
}

fn returns(r: &mut Rng, c: &mut Call) {
    let t = &mut c.text;
    let all = |t: &[u8], end: &[u8]| {
        let lines: Vec<&[u8]> = t.split(|b| *b == b'\n').collect();
        lines.join(end)
    };
    match r.below(6) {
        0 => *t = all(t, b"\r\n"),
        1 => *t = all(t, b"\r"),
        2 => *t = all(t, b"\n\r"),
        3 => t.insert(t.len() - 1, b'\r'),
        4 => t.push(b'\r'),
        _ => {
            let end = some_line(r, t).end;
            t.insert(end, b'\r');
        }
    }
}

fn end(r: &mut Rng, c: &mut Call) {
    let t = &mut c.text;
    let last = t.len() - 1;
    match r.below(8) {
        0 | 1 => drop(t.pop()),
        2 => t.push(b'\n'),
        3 | 4 => t.push(r.pick(BYTES)),
        5 => t[last] = r.pick(BYTES),
        6 => t[last] ^= 1 << r.below(8),
        _ => t[last - 1] = r.pick(BYTES),
    }
}

fn some_byte(r: &mut Rng, c: &mut Call) {
    let t = &mut c.text;
    let (n, k) = (t.len(), r.below(t.len()));
    match r.below(7) {
        0 => t[k] = r.pick(BYTES),
        1 => t[k] ^= 1 << r.below(8),
        2 => t[k] = r.next() as u8,
        3 => drop(t.remove(k)),
        4 => t.insert(k, r.pick(BYTES)),
        5 => t.swap(k, (k + 1) % n),
        // one byte moved: as long as before
        _ => {
            let b = t.remove(k);
            t.insert(r.below(n), b);
        }
    }
}

fn more_lines(r: &mut Rng, c: &mut Call) {
    let weights = "\t0000000000000000".repeat(CHANNELS[c.tp as usize] as usize);
    let [n, ..] = c.counts;
    let next = format!("{n}\t0\t0\t0\t{}{weights}\n", r.below(2)).into_bytes();
    match r.below(6) {
        0 => c.text.extend(next),
        1 => c.text.extend(c.text.clone()),
        k => by_lines(&mut c.text, |lines| {
            let at = r.below(lines.len());
            let line = match k {
                2 => b"\n".as_slice(),
                3 => lines[lines.len() - 1],
                _ => lines[at],
            };
            let to = r.pick(&[at, at + 1, lines.len()]);
            lines.insert(to, line);
        }),
    }
}

fn fewer_lines(r: &mut Rng, c: &mut Call) {
    by_lines(&mut c.text, |lines| {
        let (at, last) = (r.below(lines.len()), lines.len() - 1);
        lines.remove(r.pick(&[at, at, last, last, 0]));
    });
}

fn lines_exchanged(r: &mut Rng, c: &mut Call) {
    by_lines(&mut c.text, |lines| {
        let n = lines.len();
        let (at, any) = (r.below(n), r.below(n));
        lines.swap(at, r.pick(&[(at + 1) % n, n - 1, any]));
    });
}

fn other_header(r: &mut Rng, c: &mut Call) {
    let header = one_of(r, HEADERS);
    let end = c.text.iter().position(|b| *b == b'\n');
    c.text.splice(..end.unwrap_or(c.text.len()), header);
}

fn other_text(r: &mut Rng, c: &mut Call) {
    let refused = format!("refused\t{}\n", r.between(1, 22)).into_bytes();
    match r.below(7) {
        0 | 1 => c.text = refused,
        2 => c.text.extend(refused),
        3 => c.text.clear(),
        4 => put(&mut c.text, b"\n"),
        5 => put(&mut c.text, HEADER),
        _ => put(&mut c.text, &[HEADER, b"\n"].concat()),
    }
}

/// Patterns of NaNs that are never printed; the one that is, and numbers next to them.
fn nans(r: &mut Rng, c: &mut Call) {
    let any = 0x7ff0_0000_0000_0001 | r.next() >> 12 | r.next() << 63;
    let bits = match r.below(4) {
        0 => r.pick(&[NAN, 0x7ff0 << 48, 0xfff0 << 48, 0x7fef_ffff_ffff_ffff]),
        1 => any,
        _ => r.pick(&[
            NAN + 1,
            NAN | 1 << 63,
            0x7ff4 << 48,
            0xfff4 << 48,
            0x7ff0_0000_0000_0001,
            0xfff0_0000_0000_0001,
            0x7fff_ffff_ffff_ffff,
            0xffff_ffff_ffff_ffff,
        ]),
    };
    by_fields(r, &mut c.text, |r, fields| {
        *own_field(r, fields) = format!("{bits:016x}").into_bytes()
    });
}

/// Changes that leave a listing, of another record: a digit of a weight, or a flag.
fn right_changes(r: &mut Rng, c: &mut Call) {
    by_fields(r, &mut c.text, |r, fields| {
        if r.one_in(4) && fields.len() > 5 {
            let other = if fields[4] == b"0" { b"1" } else { b"0" };
            fields[4] = other.to_vec();
            return;
        }
        let own = own_field(r, fields);
        if !own.is_empty() {
            let k = r.below(own.len());
            own[k] = r.pick(DIGITS);
        }
    });
}

/// A number in another form, with more than 64 bits, or another number.
fn other_number(r: &mut Rng, c: &mut Call) {
    by_fields(r, &mut c.text, |r, fields| {
        let number = place_field(r, fields);
        let before = |head: &[u8], number: &[u8]| [head, number].concat();
        let known: i128 = String::from_utf8_lossy(number).parse().unwrap_or(0);
        *number = match r.below(16) {
            0..=2 => before(b"0", number),
            3..=5 => before(b"+", number),
            6 => before(b"-", number),
            7 => before(b" ", number),
            8 => before(number, b" "),
            9 => (known + r.pick(&[1 << 8, 1 << 16, 1 << 32, 1 << 64]))
                .to_string()
                .into_bytes(),
            10 => (known + 1).to_string().into_bytes(),
            11 => (known - 1).to_string().into_bytes(),
            12 => before(number, b".0"),
            13 => before(b"0x", number),
            14 => r.below(200).to_string().into_bytes(),
            _ => one_of(r, NUMBERS),
        };
    });
}

/// The numbers of a line, or of all lines, in another order.
fn other_order(r: &mut Rng, c: &mut Call) {
    let pair = r.pick(&[[2, 3], [0, 1], [1, 2], [0, 3], [1, 3], [4, 5], [5, 6]]);
    let swapped = |line: &[u8]| {
        let mut fields: Vec<&[u8]> = line.split(|b| *b == b'\t').collect();
        if pair[1] < fields.len() {
            fields.swap(pair[0], pair[1]);
        }
        fields.join(&b'\t')
    };
    if r.one_in(2) {
        let at = some_line(r, &c.text);
        let line = swapped(&c.text[at.clone()]);
        c.text.splice(at, line);
    } else {
        let lines: Vec<Vec<u8>> = c
            .text
            .split(|b| *b == b'\n')
            .enumerate()
            .map(|(k, l)| if k == 0 { l.to_vec() } else { swapped(l) })
            .collect();
        c.text = lines.join(&b'\n');
    }
}

/// Too few digits or too many, also in all as many as there should be; fields lost, added, run together, or empty.
fn other_fields(r: &mut Rng, c: &mut Call) {
    by_fields(r, &mut c.text, |r, fields| {
        let n = fields.len();
        let k = r.below(n);
        match r.below(10) {
            0 => drop(own_field(r, fields).pop()),
            1 => own_field(r, fields).push(r.pick(DIGITS)),
            2 => own_field(r, fields).insert(0, b'0'),
            3 if n > 6 => {
                let moved = fields[n - 1].pop();
                fields[n - 2].extend(moved);
            }
            4 if n > 6 => {
                let moved = fields[n - 2].pop();
                fields[n - 1].extend(moved);
            }
            3..=5 => drop(fields.remove(k)),
            6 => fields.push(fields[n - 1].clone()),
            7 => fields.push(vec![]),
            8 => fields.insert(k, vec![]),
            _ => fields[k].clear(),
        }
    });
}

fn cut(r: &mut Rng, c: &mut Call) {
    let k = r.below(c.text.len());
    if r.one_in(4) {
        c.text.drain(..k);
    } else {
        c.text.truncate(k);
    }
}

/// Two counts of the call in each other's place: the buffers fit as before.
fn counts_exchanged(r: &mut Rng, c: &mut Call) {
    let k = r.below(4);
    c.counts.swap(k, (k + 1 + r.below(3)) % 4);
}

/// Other counts with the same product, or one more or less with buffers to fit.
fn counts_changed(r: &mut Rng, c: &mut Call) {
    let k = r.below(4);
    let other = (k + 1 + r.below(3)) % 4;
    if r.one_in(2) && c.counts[k] % 2 == 0 {
        c.counts[k] /= 2;
        c.counts[other] *= 2;
    } else {
        c.counts[k] = (c.counts[k] + r.pick(&[-1, 1])).max(0);
    }
    c.rooms = rooms(CHANNELS[c.tp as usize], &c.counts);
}

/// The listing of another type, with buffers to fit.
fn type_changed(r: &mut Rng, c: &mut Call) {
    c.tp = r.between(2, 4);
    c.rooms = rooms(CHANNELS[c.tp as usize], &c.counts);
}

const FAULTS: [fn(&mut Rng, &mut Call); 21] = [
    capitals,
    other_flag,
    spaces,
    returns,
    end,
    some_byte,
    more_lines,
    fewer_lines,
    lines_exchanged,
    other_header,
    other_text,
    nans,
    right_changes,
    right_changes,
    right_changes,
    other_number,
    other_order,
    other_fields,
    cut,
    counts_exchanged,
    |r, c| {
        if r.one_in(2) {
            counts_changed(r, c)
        } else {
            type_changed(r, c)
        }
    },
];

/// A call's text with one fault or two.
pub fn damage(r: &mut Rng, c: &mut Call) {
    for _ in 0..r.pick(&[1, 1, 2]) {
        // a fault needs some bytes to work on
        if c.text.len() > 2 {
            FAULTS[r.below(FAULTS.len())](r, c);
        }
    }
}

/// Lengths of weights and flags.
fn rooms(outputs: i64, counts: &[i64; 4]) -> [usize; 2] {
    [length(outputs, counts), length(1, counts)]
}

fn spoil_rooms(r: &mut Rng, outputs: i64, c: &mut Call) {
    match r.below(6) {
        // the weights of another type, or each buffer for the other
        0 => c.rooms[0] = length(outputs % 3 + 1, &c.counts),
        1 => c.rooms.swap(0, 1),
        k => c.rooms[k % 2] = other_length(r, c.rooms[k % 2]),
    }
}

/// Faults of questions 8, 9 and 12, by their places in this row.
pub fn spoil(r: &mut Rng, faults: &[usize], c: &mut Call) {
    let outputs = CHANNELS[c.tp as usize];
    for fault in faults {
        match fault {
            0 => c.tp = spoiled_type(r),
            1 => {
                spoil_counts(r, &mut c.counts);
                c.rooms = rooms(outputs, &c.counts);
            }
            _ => spoil_rooms(r, outputs, c),
        }
    }
}
