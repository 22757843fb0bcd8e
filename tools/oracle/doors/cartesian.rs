
// Doors to the private functions above.
pub use rcb::{IterationResult, door_median};

pub fn door_tree_2d(grid: Grid<2>, weights: &[u64], depth: usize) -> IterationResult {
    let total = weights.iter().sum();
    rcb::recurse_2d(grid, grid.into_subgrid(), weights, total, depth, 1)
}

pub fn door_tree_3d(grid: Grid<3>, weights: &[u64], depth: usize) -> IterationResult {
    let total = weights.iter().sum();
    rcb::recurse_3d(grid, grid.into_subgrid(), weights, total, depth, 1)
}
