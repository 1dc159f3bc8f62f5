//! Grids of both kinds, sound and with one fault.
use crate::rng::{Rng, FAR};
use crate::study::Grid;
use phonors::grgrid::grid_index_from_address;

/// Mostly small meshes; now and then the greatest numbers.
fn mesh(r: &mut Rng) -> [i64; 3] {
    match r.below(40) {
        0 => {
            let mut d = [1; 3];
            d[r.below(3)] = r.pick(&[127, 128]);
            d
        }
        1 => [r.between(3, 5), r.between(3, 5), r.between(3, 5)],
        _ => [r.between(1, 3), r.between(1, 3), r.between(1, 2)],
    }
}

#[derive(Clone, Copy)]
enum Style {
    One,
    Images,
    Far,
    Groups,
    Full,
    Twice,
    Wild,
    Edge,
    Missing,
}

const STYLES: [Style; 9] = [
    Style::One,
    Style::Images,
    Style::Far,
    Style::Groups,
    Style::Full,
    Style::Twice,
    Style::Wild,
    Style::Edge,
    Style::Missing,
];

/// The address between 0 and the mesh of a grid index.
fn place(i: i64, d: [i64; 3]) -> [i64; 3] {
    [i % d[0], i / d[0] % d[1], i / (d[0] * d[1])]
}

/// An address that reduces to the same grid index.
fn image(r: &mut Rng, a: [i64; 3], d: [i64; 3], far: i64) -> [i64; 3] {
    [0, 1, 2].map(|k| a[k] + d[k] * r.between(-far, far))
}

fn edge(r: &mut Rng) -> [i64; 3] {
    [0; 3].map(|_| r.pick(&[-4096, 4096, -4095, 4095, 0]))
}

fn small(r: &mut Rng, most: i64) -> [i64; 3] {
    [0; 3].map(|_| r.between(-most, most))
}

/// The addresses that one grid index has.
fn group(r: &mut Rng, style: Style, at: [i64; 3], d: [i64; 3]) -> Vec<[i64; 3]> {
    let mut near: Vec<[i64; 3]> = (0..8i64)
        .map(|c| {
            [
                at[0] - d[0] * (c & 1),
                at[1] - d[1] * (c >> 1 & 1),
                at[2] - d[2] * (c >> 2),
            ]
        })
        .collect();
    r.shuffle(&mut near);
    match style {
        Style::One | Style::Missing => vec![at],
        Style::Images => vec![image(r, at, d, 1)],
        Style::Far => vec![image(r, at, d, 10)],
        Style::Groups => near[..r.between(1, 4) as usize].to_vec(),
        Style::Full => near,
        Style::Twice => [near[0], near[1], near[0], near[2]][..r.between(1, 4) as usize].to_vec(),
        Style::Wild => (0..r.between(1, 3)).map(|_| small(r, 2)).collect(),
        Style::Edge => vec![edge(r)],
    }
}

fn groups(r: &mut Rng, style: Style, d: [i64; 3]) -> Vec<Vec<[i64; 3]>> {
    let n = d[0] * d[1] * d[2];
    (0..n).map(|i| group(r, style, place(i, d), d)).collect()
}

fn dense_map(groups: &[Vec<[i64; 3]>]) -> Vec<i64> {
    let mut map = vec![0];
    for g in groups {
        map.push(map[map.len() - 1] + g.len() as i64);
    }
    map
}

/// A map on the doubled mesh; a place without an address holds 8N.
fn sparse_map(r: &mut Rng, style: Style, rows: &[[i64; 3]], d: [i64; 3]) -> Vec<i64> {
    let missing = 8 * d[0] * d[1] * d[2];
    let mut map = vec![missing; missing as usize];
    match style {
        Style::Missing => (),
        Style::Wild => map.iter_mut().for_each(|v| {
            if r.one_in(2) {
                *v = r.below(rows.len()) as i64;
            }
        }),
        _ => {
            for (i, a) in rows.iter().enumerate() {
                map[grid_index_from_address(*a, d.map(|x| 2 * x)) as usize] = i as i64;
            }
        }
    }
    map
}

/// A sound grid.
pub fn grid(r: &mut Rng) -> Grid {
    let kind = r.between(1, 2);
    let d = mesh(r);
    let style = r.pick(&STYLES);
    let groups = groups(r, style, d);
    let mut rows = groups.concat();
    let mut map = dense_map(&groups);
    if kind == 1 {
        if r.one_in(2) {
            r.shuffle(&mut rows);
        }
        map = sparse_map(r, style, &rows, d);
    }
    if r.one_in(5) {
        // what lies behind the needed part is not looked at
        map.extend((0..r.between(1, 3)).map(|_| r.pick(&[0, -1, 7, i64::MAX, i64::MIN])));
    }
    Grid {
        kind,
        mesh: d,
        addresses: rows.concat(),
        map,
    }
}

/// A step that leads from a point to an address of the list, where it is short enough.
pub fn aimed(r: &mut Rng, g: &Grid, from: usize) -> [i64; 3] {
    let to = r.below(g.count());
    let step = [0, 1, 2].map(|k| g.addresses[3 * to + k] - g.addresses[3 * from + k]);
    if step.iter().all(|x| x.abs() <= 4096) {
        step
    } else {
        [0, 0, 0]
    }
}

/// Faults, those of questions 3 to 6.
pub const FAULTS: [fn(&mut Rng, &mut Grid); 4] =
    [spoil_kind, spoil_mesh, spoil_addresses, spoil_map];

fn spoil_kind(r: &mut Rng, g: &mut Grid) {
    g.kind = r.pick(&[0, 3, -1, -2, 4, i64::MAX, i64::MIN]);
}

fn spoil_mesh(r: &mut Rng, g: &mut Grid) {
    g.mesh[r.below(3)] = r.pick(&[0, 129, -1, 130, 256, 1 << 32, i64::MAX, i64::MIN]);
}

fn spoil_addresses(r: &mut Rng, g: &mut Grid) {
    let n = g.mesh.iter().product::<i64>().clamp(0, 200) as usize;
    let a = &mut g.addresses;
    match r.below(6) {
        0 => drop(a.pop()),
        1 => a.extend(vec![0; r.between(1, 2) as usize]),
        2 => a.truncate(3 * n.saturating_sub(1)),
        3 => a.resize(3 * (8 * n + 1), 0),
        4 => a.clear(),
        _ => {
            if !a.is_empty() {
                let k = r.below(a.len());
                a[k] = r.pick(&[4097, -4097, i64::MAX, i64::MIN]);
            }
        }
    }
}

/// A place of the needed part of a map: its ends more often than others.
fn needed(r: &mut Rng, length: usize, last: usize) -> usize {
    let k = r.below(length);
    r.pick(&[0, last.min(length - 1), k, k])
}

fn spoil_map(r: &mut Rng, g: &mut Grid) {
    let n = g
        .mesh
        .iter()
        .fold(1i64, |n, d| n.saturating_mul(*d))
        .clamp(0, 1 << 21) as usize;
    let p = g.count() as i64;
    let last = if g.kind == 1 {
        (8 * n).saturating_sub(1)
    } else {
        n
    };
    let m = &mut g.map;
    let how = r.below(6);
    if how == 0 || m.is_empty() {
        m.truncate(last);
        return;
    }
    if how == 1 {
        m.clear();
        return;
    }
    let k = needed(r, m.len(), last);
    let before = m[k.saturating_sub(1)];
    let eight = 8 * n as i64;
    m[k] = if g.kind == 1 {
        r.pick(&[-1, p, eight + 1, eight - 1, -eight, FAR[0], FAR[1]])
    } else {
        let one_off = m[k].wrapping_add(r.pick(&[1, -1]));
        r.pick(&[one_off, one_off, before, -1, p, p + 1, FAR[0], FAR[1]])
    };
}
