// ---- appended for the comparison: ways to private functions ----
pub fn probe_sort_omegas(v: &mut [f64; 4]) -> i64 {
    sort_omegas(v)
}
pub fn probe_diagonal_length(l: MatD, i: usize) -> f64 {
    norm_squared(matvec_di(&l, MAIN_DIAGONALS[i]))
}
/// The branch and the product that one row adds.
pub fn probe_row(omega: f64, row: &[f64; 4], function: WeightFunction) -> (i64, f64) {
    let mut v = *row;
    let ci = sort_omegas(&mut v);
    let branch = v.iter().filter(|x| omega >= **x).count() as i64;
    let product = match function {
        WeightFunction::I => _i(branch, ci, omega, &v) * _g(branch, omega, &v),
        WeightFunction::J => _j(branch, ci, omega, &v) * _n(branch, omega, &v),
    };
    (branch, product)
}
