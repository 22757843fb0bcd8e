use crate::refused::answered;
use crate::sys;
use crate::Refused;

/// The split of a node that is not cut.
pub const NOT_CUT: u32 = u32::MAX;

/// A cartesian mesh of cells. Cell (x, y) stands at x + width * y, cell (x, y, z) at x + width * (y + height * z).
///
/// ```
/// use skarvolm::Grid;
///
/// let mut partition = [0; 16];
/// let splits = Grid::new_2d(4, 4).rcb(&mut partition, &[1; 16], 2);
/// assert_eq!(splits, Ok(vec![2, 2, 2]));
/// assert_eq!(partition, [0, 0, 1, 1, 0, 0, 1, 1, 2, 2, 3, 3, 2, 2, 3, 3]);
/// ```
#[derive(Clone, Copy, Debug, PartialEq, Eq, Hash)]
pub struct Grid<const D: usize> {
    size: [u32; D],
}

/// What a replayed night leaves beside the weights and the partition: the cuts of the last halving, as [`Grid::<2>::halve`] has
/// them, and the answer to each event.
#[derive(Clone, Debug, PartialEq, Eq)]
pub struct Replayed {
    /// The cuts of the last halving.
    pub splits: Vec<u32>,
    /// Of each event: accepted, or refused by [`Refused::Cell`] or [`Refused::Weight`] and then without effect.
    pub answers: Vec<Result<(), Refused>>,
}

impl Grid<2> {
    /// A grid of two sides. They are tested when it is halved.
    pub fn new_2d(width: u32, height: u32) -> Self {
        Self { size: [width, height] }
    }

    /// Halves the grid `iter_count` times by edition 1, coupe's, across y first: see [`Grid::<2>::halve`].
    pub fn rcb(self, partition: &mut [u32], weights: &[u64], iter_count: u32) -> Result<Vec<u32>, Refused> {
        self.halve(1, 1, partition, weights, iter_count)
    }

    /// Halves the grid `iter_count` times, across the axis `first` (x is 0, y is 1), then the other, and so on: writes the part of
    /// each cell, and returns the cuts.
    ///
    /// There are 2^iter_count - 1 cuts, the root's first, those of the halves of node i (counted from 1) at nodes 2i and
    /// 2i + 1, in grid coordinates, [`NOT_CUT`] for a node not cut. `edition` is 1 or 2: 2 rounds up the least that a left part
    /// should weigh, where 1 drops its fraction. Refuses by [`Refused::Edition`], [`Refused::First`], [`Refused::Sides`],
    /// [`Refused::Depth`] (of `iter_count`), [`Refused::Lengths`], [`Refused::Weight`], in this order, and leaves `partition`
    /// untouched then.
    ///
    /// ```
    /// use skarvolm::Grid;
    ///
    /// let mut partition = [0; 4];
    /// Grid::new_2d(2, 2).halve(2, 1, &mut partition, &[1; 4], 2)?;
    /// assert_eq!(partition, [0, 1, 2, 3]);
    /// Grid::new_2d(2, 2).halve(2, 0, &mut partition, &[1; 4], 2)?;
    /// assert_eq!(partition, [0, 2, 1, 3]);
    /// # Ok::<(), skarvolm::Refused>(())
    /// ```
    pub fn halve(
        self,
        edition: u32,
        first: u32,
        partition: &mut [u32],
        weights: &[u64],
        iter_count: u32,
    ) -> Result<Vec<u32>, Refused> {
        let [width, height] = self.size;
        let mut splits = vec![0; node_count(iter_count)];
        // SAFETY: each pointer and length is a live slice's; `splits` and `partition`, which are written, overlap nothing.
        let number = unsafe {
            sys::skarvolm_halve_2d(
                edition,
                width,
                height,
                first,
                iter_count,
                weights.as_ptr(),
                weights.len(),
                splits.as_mut_ptr(),
                splits.len(),
                partition.as_mut_ptr(),
                partition.len(),
            )
        };
        answered(number, splits)
    }
    /// Replays a bench night: halves the grid by edition 2, as [`Grid::<2>::halve`] does, and then lets each event add an amount to
    /// the cell of a number. Writes the weights and the part of each cell after the night.
    ///
    /// An event whose cell is not in the grid, or would weigh over 16,777,215, is refused alone and changes nothing. After each
    /// accepted event the bounds of a part's weight are tested for every part, and where one is broken the grid is halved
    /// afresh; so the bounds hold of the partition after the night, while the splits are those of the last halving. Refuses by
    /// [`Refused::First`], [`Refused::Sides`], [`Refused::Depth`] (of `iter_count`), [`Refused::Lengths`], [`Refused::Weight`], in
    /// this order, and leaves `partition` and `weights` untouched then.
    ///
    /// ```
    /// use skarvolm::{Grid, Refused};
    ///
    /// let (mut partition, mut weights) = ([0; 9], [0; 9]);
    /// let night = Grid::new_2d(3, 3).replay(1, &mut partition, &mut weights, &[0, 9, 4, 8], &[1, 1, 1, 1], 2)?;
    /// assert_eq!(night.answers, [Ok(()), Err(Refused::Cell), Ok(()), Ok(())]);
    /// assert_eq!(weights, [1, 0, 0, 0, 1, 0, 0, 0, 1]);
    /// assert_eq!(partition, [1, 1, 1, 2, 2, 3, 2, 2, 3]);
    /// # Ok::<(), skarvolm::Refused>(())
    /// ```
    pub fn replay(
        self,
        first: u32,
        partition: &mut [u32],
        weights: &mut [u64],
        cells: &[u64],
        amounts: &[u64],
        iter_count: u32,
    ) -> Result<Replayed, Refused> {
        let [width, height] = self.size;
        let mut splits = vec![0; node_count(iter_count)];
        let mut answers = vec![0; cells.len()];
        // SAFETY: each pointer and length is a live slice's; those that are written overlap nothing.
        let number = unsafe {
            sys::skarvolm_replay_2d(
                width,
                height,
                first,
                iter_count,
                weights.as_mut_ptr(),
                weights.len(),
                cells.as_ptr(),
                cells.len(),
                amounts.as_ptr(),
                amounts.len(),
                answers.as_mut_ptr(),
                answers.len(),
                splits.as_mut_ptr(),
                splits.len(),
                partition.as_mut_ptr(),
                partition.len(),
            )
        };
        replayed(number, splits, answers)
    }
}

impl Grid<3> {
    /// A grid of three sides. They are tested when it is halved.
    pub fn new_3d(width: u32, height: u32, layers: u32) -> Self {
        Self {
            size: [width, height, layers],
        }
    }

    /// Halves the grid `iter_count` times by edition 1, coupe's, across y first: see [`Grid::<3>::halve`].
    pub fn rcb(self, partition: &mut [u32], weights: &[u64], iter_count: u32) -> Result<Vec<u32>, Refused> {
        self.halve(1, 1, partition, weights, iter_count)
    }

    /// Halves the grid `iter_count` times, across the axis `first` (x is 0, y is 1, z is 2), then the others in turn, x, y, z, x,
    /// as [`Grid::<2>::halve`] does in 2D.
    pub fn halve(
        self,
        edition: u32,
        first: u32,
        partition: &mut [u32],
        weights: &[u64],
        iter_count: u32,
    ) -> Result<Vec<u32>, Refused> {
        let [width, height, layers] = self.size;
        let mut splits = vec![0; node_count(iter_count)];
        // SAFETY: each pointer and length is a live slice's; `splits` and `partition`, which are written, overlap nothing.
        let number = unsafe {
            sys::skarvolm_halve_3d(
                edition,
                width,
                height,
                layers,
                first,
                iter_count,
                weights.as_ptr(),
                weights.len(),
                splits.as_mut_ptr(),
                splits.len(),
                partition.as_mut_ptr(),
                partition.len(),
            )
        };
        answered(number, splits)
    }
    /// Replays a bench night in 3D, as [`Grid::<2>::replay`] does in 2D.
    pub fn replay(
        self,
        first: u32,
        partition: &mut [u32],
        weights: &mut [u64],
        cells: &[u64],
        amounts: &[u64],
        iter_count: u32,
    ) -> Result<Replayed, Refused> {
        let [width, height, layers] = self.size;
        let mut splits = vec![0; node_count(iter_count)];
        let mut answers = vec![0; cells.len()];
        // SAFETY: each pointer and length is a live slice's; those that are written overlap nothing.
        let number = unsafe {
            sys::skarvolm_replay_3d(
                width,
                height,
                layers,
                first,
                iter_count,
                weights.as_mut_ptr(),
                weights.len(),
                cells.as_ptr(),
                cells.len(),
                amounts.as_ptr(),
                amounts.len(),
                answers.as_mut_ptr(),
                answers.len(),
                splits.as_mut_ptr(),
                splits.len(),
                partition.as_mut_ptr(),
                partition.len(),
            )
        };
        replayed(number, splits, answers)
    }
}

/// 2^iter_count - 1, or 0 where the library refuses the depth before it looks at the splits.
fn node_count(iter_count: u32) -> usize {
    if iter_count <= 12 {
        (1 << iter_count) - 1
    } else {
        0
    }
}

/// What a call that replays a night answers by its number and slices.
fn replayed(number: u32, splits: Vec<u32>, answers: Vec<u32>) -> Result<Replayed, Refused> {
    answered(number, ())?;
    Ok(Replayed {
        splits,
        answers: answers.into_iter().map(|said| answered(said, ())).collect(),
    })
}
