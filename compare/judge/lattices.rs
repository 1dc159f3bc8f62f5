//! Grid index; choice of the table; lattice times vector.
use crate::lent::{same, Word};
use crate::report::{Kind, Seen};
use crate::rng::{Rng, FAR};
use crate::{asks, calls};
use phonors::common::{matvec_di, MatD};
use phonors::grgrid::grid_index_from_address;
use phonors::probe::probe_diagonal_length;
use phonors::tetrahedron_method::relative_grid_address;

pub const KINDS: [Kind; 3] = [
    Kind::new("grid index", &[4]),
    Kind::new("choice of the table", &[2]),
    Kind::new("lattice times vector", &[2, 7]),
];

pub fn cases(r: &mut Rng, seen: &mut [Seen]) {
    for _ in 0..4 {
        index(r, &mut seen[0]);
        choice(r, &mut seen[1]);
        matvec(r, &mut seen[2]);
    }
}

fn component(r: &mut Rng) -> i64 {
    match r.below(4) {
        0 => r.next() as i64,
        1 => r.pick(&[0, 1, -1, 4096, -4096, 255, 256, -256, FAR[0], FAR[1]]),
        _ => r.between(-300, 300),
    }
}

fn index(r: &mut Rng, seen: &mut Seen) {
    let address = [0; 3].map(|_| component(r));
    let mut mesh = [0; 3].map(|_| match r.below(2) {
        0 => r.pick(&[1, 2, 3, 7, 128, 129, 255, 256]),
        _ => r.between(1, 256),
    });
    for k in r.faults(3) {
        mesh[k] = r.pick(&[0, -1, 257, -256, 1 << 32, FAR[0], FAR[1]]);
    }
    let no = asks::index(mesh);
    let before = i64::any(r);
    let want = if no == 0 {
        grid_index_from_address(address, mesh)
    } else {
        before
    };
    let mut got = before;
    let answer = calls::index(address, mesh, &mut got);
    seen.note(no, answer == no && got == want, || {
        format!("{address:?} on {mesh:?}: {answer}, {got} for {want}")
    });
}

/// One style of entries for all nine.
fn lattice(r: &mut Rng) -> [f64; 9] {
    let a = 2.0 * r.unit() - 1.0;
    let skew = r.one_in(2);
    let style = r.below(7);
    // wide exponents: of the whole lattice, and of its entries beside one another
    let (whole, spread) = (r.between(-700, 29), r.pick(&[1, 3, 30, 300]));
    if style == 6 {
        return rotated(r);
    }
    let mut l = [0.0; 9];
    for (k, x) in l.iter_mut().enumerate() {
        *x = match style {
            0 => r.between(-2, 2) as f64,
            1 => r.between(-(1 << 20), 1 << 20) as f64,
            2 => r.pick(&[
                0.0,
                -0.0,
                1.0,
                -1.0,
                2f64.powi(30),
                -2f64.powi(30),
                f64::from_bits(1),
            ]),
            3 => 2.0 * r.unit() - 1.0,
            4 => (2.0 * r.unit() - 1.0) * 2f64.powi((whole - r.below(spread) as i64) as i32),
            _ => nearly_cubic(r, k, a, skew),
        };
    }
    l
}

/// Three vectors at right angles, turned anyhow: all four lengths are the same but for rounding.
fn rotated(r: &mut Rng) -> [f64; 9] {
    let q = [0.0; 4].map(|_| 2.0 * r.unit() - 1.0);
    let n = q.iter().map(|x| x * x).sum::<f64>();
    let [w, x, y, z] = q;
    let scale = [0.0; 3].map(|_| if r.one_in(2) { 1.0 } else { r.unit() + 0.5 });
    let turned = [
        [
            n - 2.0 * (y * y + z * z),
            2.0 * (x * y - z * w),
            2.0 * (x * z + y * w),
        ],
        [
            2.0 * (x * y + z * w),
            n - 2.0 * (x * x + z * z),
            2.0 * (y * z - x * w),
        ],
        [
            2.0 * (x * z - y * w),
            2.0 * (y * z + x * w),
            n - 2.0 * (x * x + y * y),
        ],
    ];
    let mut l = [0.0; 9];
    for (k, e) in l.iter_mut().enumerate() {
        *e = turned[k / 3][k % 3] * scale[k % 3];
    }
    l
}

fn nearly_cubic(r: &mut Rng, k: usize, a: f64, skew: bool) -> f64 {
    let x = match k {
        0 | 8 => a,
        4 => a * (1.0 + r.between(-2, 2) as f64 * f64::EPSILON),
        _ => 0.0,
    };
    if skew && r.one_in(3) {
        x + a
    } else {
        x
    }
}

fn spoil_lattice(r: &mut Rng, l: &mut [f64; 9]) {
    let x = r.pick(&[
        f64::INFINITY,
        f64::NAN,
        2f64.powi(30).next_up(),
        f64::MAX,
        2f64.powi(31),
    ]);
    l[r.below(9)] = r.sign(x);
}

fn matrix(l: &[f64; 9]) -> MatD {
    [[l[0], l[1], l[2]], [l[3], l[4], l[5]], [l[6], l[7], l[8]]]
}

fn choice(r: &mut Rng, seen: &mut Seen) {
    let mut l = lattice(r);
    for _ in r.faults(1) {
        spoil_lattice(r, &mut l);
    }
    let no = asks::choice(&l);
    let mut want = ([0i64; 288].map(|_| r.next() as i64), usize::any(r));
    let (mut table, mut index) = want;
    let answer = calls::choice(&l, &mut table, &mut index);
    if no == 0 {
        let (rows, chosen) = relative_grid_address(matrix(&l));
        want.0.copy_from_slice(&rows.concat().concat());
        want.1 = chosen as usize;
    }
    seen.note(
        no,
        answer == no && table == want.0 && index == want.1,
        || {
            let lengths = [0, 1, 2, 3].map(|k| probe_diagonal_length(matrix(&l), k));
            format!(
                "{l:?}, lengths {lengths:?}: {answer}, {index} for {}",
                want.1
            )
        },
    );
}

fn matvec(r: &mut Rng, seen: &mut Seen) {
    let mut l = lattice(r);
    let mut v = [0; 3].map(|_| r.pick(&[0, 1, -1, 4096, -4096, 17]));
    v[r.below(3)] = r.between(-4096, 4096);
    for k in r.faults(2) {
        match k {
            0 => spoil_lattice(r, &mut l),
            _ => v[r.below(3)] = r.pick(&[4097, -4097, FAR[0], FAR[1]]),
        }
    }
    let no = asks::matvec(&l, v);
    let before = [0.0; 3].map(|_| f64::any(r));
    let want = if no == 0 {
        matvec_di(&matrix(&l), v)
    } else {
        before
    };
    let mut got = before;
    let answer = calls::matvec(&l, v, &mut got);
    seen.note(no, answer == no && same(&got, &want), || {
        format!("{l:?} times {v:?}: {answer}, {got:?} for {want:?}")
    });
}
