
// Doors to the private functions above.
pub fn door_median(weights: &[u64], total: u64) -> (usize, u64) {
    let median = weighted_median(weights, total);
    (median.position, median.left_weight)
}
