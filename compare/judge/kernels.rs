//! Functions of the proved crates that are no public entries (../export.rt.txt). A work area is 384 floats, rows of four.

#[link(name = "export", kind = "static")]
extern "C" {
    fn export_sort(area: *mut f64, places: *mut usize, rows: usize);
    fn export_sorted_i(omega: f64, area: *const f64, places: *const usize, rows: usize) -> f64;
    fn export_sorted_j(omega: f64, area: *const f64, places: *const usize, rows: usize) -> f64;
}

/// Puts rows in order, and tells where the first value of each went.
pub fn sort(area: &mut [f64; 384], places: &mut [usize; 96], rows: usize) {
    assert!(rows <= 96);
    unsafe { export_sort(area.as_mut_ptr(), places.as_mut_ptr(), rows) }
}

/// The weight over rows in order.
pub fn sorted(i: bool, omega: f64, area: &[f64; 384], places: &[usize; 96], rows: usize) -> f64 {
    assert!(rows <= 96 && places[..rows].iter().all(|p| *p < 4));
    let call = if i { export_sorted_i } else { export_sorted_j };
    unsafe { call(omega, area.as_ptr(), places.as_ptr(), rows) }
}
