//! A way to a function that the original keeps to its own crate.
use crate::bzgrid::{fill_neighboring_grid_points, BzGridError, BzGridView};
use crate::common::Vec3I;

pub fn neighbours_of_one(
    out: &mut [i64],
    grid_point: i64,
    steps: &[Vec3I],
    grid: &BzGridView,
) -> Result<(), BzGridError> {
    fill_neighboring_grid_points(out, grid_point, steps, grid)
}
