//! The calls of include/skarvolm.h.

extern "C" {
    pub fn skarvolm_deposit(source: u64, mask: u64) -> u64;
    pub fn skarvolm_encode_2d(x: u64, y: u64, order: u32, index: *mut u64) -> u32;
    pub fn skarvolm_encode_3d(x: u64, y: u64, z: u64, order: u32, index: *mut u64) -> u32;
    pub fn skarvolm_decode_2d(index: u64, order: u32, x: *mut u64, y: *mut u64) -> u32;
    pub fn skarvolm_decode_3d(index: u64, order: u32, x: *mut u64, y: *mut u64, z: *mut u64) -> u32;
    pub fn skarvolm_cell(low: f64, high: f64, order: u32, value: f64, cell: *mut u64) -> u32;
    pub fn skarvolm_index_2d(
        xs: *const f64,
        xs_length: usize,
        ys: *const f64,
        ys_length: usize,
        order: u32,
        indices: *mut u64,
        indices_length: usize,
    ) -> u32;
    pub fn skarvolm_index_3d(
        xs: *const f64,
        xs_length: usize,
        ys: *const f64,
        ys_length: usize,
        zs: *const f64,
        zs_length: usize,
        order: u32,
        indices: *mut u64,
        indices_length: usize,
    ) -> u32;
    pub fn skarvolm_index_2d_in(
        xlow: f64,
        xhigh: f64,
        ylow: f64,
        yhigh: f64,
        xs: *const f64,
        xs_length: usize,
        ys: *const f64,
        ys_length: usize,
        order: u32,
        indices: *mut u64,
        indices_length: usize,
    ) -> u32;
    pub fn skarvolm_index_3d_in(
        xlow: f64,
        xhigh: f64,
        ylow: f64,
        yhigh: f64,
        zlow: f64,
        zhigh: f64,
        xs: *const f64,
        xs_length: usize,
        ys: *const f64,
        ys_length: usize,
        zs: *const f64,
        zs_length: usize,
        order: u32,
        indices: *mut u64,
        indices_length: usize,
    ) -> u32;
    pub fn skarvolm_halve_2d(
        edition: u32,
        width: u32,
        height: u32,
        first: u32,
        depth: u32,
        weights: *const u64,
        weights_length: usize,
        splits: *mut u32,
        splits_length: usize,
        ids: *mut u32,
        ids_length: usize,
    ) -> u32;
    pub fn skarvolm_halve_3d(
        edition: u32,
        width: u32,
        height: u32,
        layers: u32,
        first: u32,
        depth: u32,
        weights: *const u64,
        weights_length: usize,
        splits: *mut u32,
        splits_length: usize,
        ids: *mut u32,
        ids_length: usize,
    ) -> u32;
    pub fn skarvolm_parts(
        n: u32,
        indices: *const u64,
        indices_length: usize,
        weights: *const u64,
        weights_length: usize,
        parts: *mut u32,
        parts_length: usize,
        order: *mut u32,
        order_length: usize,
    ) -> u32;
    pub fn skarvolm_replay_2d(
        width: u32,
        height: u32,
        first: u32,
        depth: u32,
        weights: *mut u64,
        weights_length: usize,
        cells: *const u64,
        cells_length: usize,
        amounts: *const u64,
        amounts_length: usize,
        answers: *mut u32,
        answers_length: usize,
        splits: *mut u32,
        splits_length: usize,
        ids: *mut u32,
        ids_length: usize,
    ) -> u32;
    pub fn skarvolm_replay_3d(
        width: u32,
        height: u32,
        layers: u32,
        first: u32,
        depth: u32,
        weights: *mut u64,
        weights_length: usize,
        cells: *const u64,
        cells_length: usize,
        amounts: *const u64,
        amounts_length: usize,
        answers: *mut u32,
        answers_length: usize,
        splits: *mut u32,
        splits_length: usize,
        ids: *mut u32,
        ids_length: usize,
    ) -> u32;
}
