
// Doors to the private functions above.
pub fn door_deposit(source: u64, mask: u64) -> u64 {
    pdep_u64_fallback(source, mask)
}

pub fn door_slow(zorder: u64, order: usize, config: usize) -> (u64, usize) {
    encode_2d_slow(zorder, order, config)
}

pub fn door_encode_2d(x: u64, y: u64, order: usize) -> u64 {
    encode_2d(x, y, order)
}

pub fn door_encode_3d(x: u64, y: u64, z: u64, order: usize) -> u64 {
    encode_3d(x, y, z, order)
}

pub fn door_cell(low: f64, high: f64, order: usize, value: f64) -> u64 {
    segment_to_segment(low, high, order)(value)
}
