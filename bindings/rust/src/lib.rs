//! Hilbert indices of cells and points, and halving of grids by recursive coordinate bisection, in coupe's words.
//!
//! A safe face over the static library of Skarvolm, whose every answer and refusal is proved; this crate itself is not. Each
//! call tests its own input: where it cannot answer it is [`Refused`], and nothing panics.
//!
//! ```
//! use skarvolm::{Grid, HilbertCurve, Refused};
//!
//! # fn main() -> Result<(), Refused> {
//! // The points in the order of the curve.
//! let (xs, ys) = ([0.5, 9.0, 9.5, 0.0], [0.0, 1.0, 9.5, 9.0]);
//! let indices = HilbertCurve::default().index_2d(&xs, &ys)?;
//! let mut order = [0, 1, 2, 3];
//! order.sort_by_key(|&i| indices[i]);
//! assert_eq!(order, [0, 3, 2, 1]);
//!
//! // A grid of 4 by 1 cells, halved three times.
//! let mut partition = [0; 4];
//! Grid::new_2d(4, 1).rcb(&mut partition, &[10, 20, 30, 40], 3)?;
//! assert_eq!(partition, [5, 5, 7, 7]);
//! # Ok(())
//! # }
//! ```
//!
//! # coupe's names
//!
//! | coupe | here |
//! |---|---|
//! | `HilbertCurve { part_count, order }` | the same, both `u32` |
//! | `HilbertCurve::default()`, order 12 | the same, order 16 |
//! | `curve.partition(&mut ids, (points, weights))` | [`HilbertCurve::partition_points`], with whole weights, boxes along the axes and exact splits |
//! | `Error` of a curve | [`Refused`] |
//! | `Grid::new_2d(width, height)`, `Grid::new_3d(width, height, depth)` | the same, the sides `u32` |
//! | `grid.rcb(&mut partition, weights, iter_count)` | the same, with ids and weights `u32` and `u64`; it returns the cuts |
//! | a panic, an answer that means nothing | [`Refused`], and nothing is written |
#![warn(missing_docs)]

mod curve;
mod grid;
mod points;
mod refused;
mod sys;

pub use curve::HilbertCurve;
pub use grid::{Grid, Replayed, NOT_CUT};
pub use points::Point;
pub use refused::Refused;

/// The bits of `source`, lowest first, laid onto the set bits of `mask`, lowest first. Never refused.
///
/// ```
/// assert_eq!(skarvolm::deposit(0b101, 0b11010), 0b10010);
/// ```
pub fn deposit(source: u64, mask: u64) -> u64 {
    // SAFETY: the call takes and returns numbers alone.
    unsafe { sys::skarvolm_deposit(source, mask) }
}
