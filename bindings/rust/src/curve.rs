use crate::refused::answered;
use crate::sys;
use crate::Refused;

/// The Hilbert curve of an order, 2^order cells on each axis, and the parts that points along it are given.
///
/// ```
/// use skarvolm::{HilbertCurve, Refused};
///
/// let curve = HilbertCurve { order: 7, ..Default::default() };
/// assert_eq!(curve.encode_2d(127, 127), Ok(10922));
/// assert_eq!(curve.decode_2d(10922), Ok((127, 127)));
/// assert_eq!(curve.encode_2d(128, 0), Err(Refused::Coordinate));
/// ```
#[derive(Clone, Copy, Debug, PartialEq, Eq, Hash)]
pub struct HilbertCurve {
    /// From 1 to 1,024.
    pub part_count: u32,
    /// At most 32 in 2D and on one axis, at most 21 in 3D.
    pub order: u32,
}

impl Default for HilbertCurve {
    /// Two parts, as in coupe, and order 16, where coupe has 12.
    fn default() -> Self {
        Self {
            part_count: 2,
            order: 16,
        }
    }
}

impl HilbertCurve {
    /// The index of a cell. Refuses by [`Refused::Order`], [`Refused::Coordinate`].
    ///
    /// Each call fills a table of 16,384 entries; for many points [`HilbertCurve::index_2d`] fills it once.
    pub fn encode_2d(self, x: u64, y: u64) -> Result<u64, Refused> {
        let mut index = 0;
        // SAFETY: `index` is a live u64 that nothing else refers to.
        let number = unsafe { sys::skarvolm_encode_2d(x, y, self.order, &mut index) };
        answered(number, index)
    }

    /// The index of a cell. Refuses by [`Refused::Order`], [`Refused::Coordinate`].
    pub fn encode_3d(self, x: u64, y: u64, z: u64) -> Result<u64, Refused> {
        let mut index = 0;
        // SAFETY: `index` is a live u64 that nothing else refers to.
        let number = unsafe { sys::skarvolm_encode_3d(x, y, z, self.order, &mut index) };
        answered(number, index)
    }

    /// The cell of an index. Refuses by [`Refused::Order`], [`Refused::Index`].
    pub fn decode_2d(self, index: u64) -> Result<(u64, u64), Refused> {
        let (mut x, mut y) = (0, 0);
        // SAFETY: `x` and `y` are two live u64 that nothing else refers to.
        let number = unsafe { sys::skarvolm_decode_2d(index, self.order, &mut x, &mut y) };
        answered(number, (x, y))
    }

    /// The cell of an index. Refuses by [`Refused::Order`], [`Refused::Index`].
    pub fn decode_3d(self, index: u64) -> Result<(u64, u64, u64), Refused> {
        let (mut x, mut y, mut z) = (0, 0, 0);
        // SAFETY: `x`, `y` and `z` are three live u64 that nothing else refers to.
        let number = unsafe { sys::skarvolm_decode_3d(index, self.order, &mut x, &mut y, &mut z) };
        answered(number, (x, y, z))
    }

    /// The cell of a value on the axis from `low` to `high`. Where `low` is below `high` it differs by at most 1 from the whole part
    /// of (value - low) · 2^order / (high - low), worked out exactly. Refuses by [`Refused::Order`], [`Refused::Value`],
    /// [`Refused::Outside`], [`Refused::Thin`].
    ///
    /// ```
    /// # use skarvolm::HilbertCurve;
    /// // An axis from 0 to 4 in four cells: a value on a border lies in the lower one here.
    /// let curve = HilbertCurve { order: 2, ..Default::default() };
    /// assert_eq!(curve.cell(0.0, 4.0, 2.0), Ok(1));
    /// assert_eq!(curve.cell(0.0, 4.0, 2.5), Ok(2));
    /// ```
    pub fn cell(self, low: f64, high: f64, value: f64) -> Result<u64, Refused> {
        let mut cell = 0;
        // SAFETY: `cell` is a live u64 that nothing else refers to.
        let number = unsafe { sys::skarvolm_cell(low, high, self.order, value, &mut cell) };
        answered(number, cell)
    }

    /// The index of each point, over the box along the axes from the lowest to the highest coordinate. Refuses by
    /// [`Refused::Order`], [`Refused::NoPoints`], [`Refused::Lengths`], [`Refused::Value`], [`Refused::Thin`].
    ///
    /// ```
    /// # use skarvolm::HilbertCurve;
    /// let curve = HilbertCurve { order: 1, ..Default::default() };
    /// let indices = curve.index_2d(&[0.0, 0.0, 1.0, 1.0], &[0.0, 1.0, 1.0, 0.0]);
    /// assert_eq!(indices, Ok(vec![0, 1, 2, 3]));
    /// ```
    pub fn index_2d(self, xs: &[f64], ys: &[f64]) -> Result<Vec<u64>, Refused> {
        let mut indices = vec![0; xs.len()];
        // SAFETY: each pointer and length is a live slice's, and `indices`, alone written, overlaps none of the others.
        let number = unsafe {
            sys::skarvolm_index_2d(
                xs.as_ptr(),
                xs.len(),
                ys.as_ptr(),
                ys.len(),
                self.order,
                indices.as_mut_ptr(),
                indices.len(),
            )
        };
        answered(number, indices)
    }

    /// The index of each point, as [`HilbertCurve::index_2d`] gives it.
    pub fn index_3d(self, xs: &[f64], ys: &[f64], zs: &[f64]) -> Result<Vec<u64>, Refused> {
        let mut indices = vec![0; xs.len()];
        // SAFETY: each pointer and length is a live slice's, and `indices`, alone written, overlaps none of the others.
        let number = unsafe {
            sys::skarvolm_index_3d(
                xs.as_ptr(),
                xs.len(),
                ys.as_ptr(),
                ys.len(),
                zs.as_ptr(),
                zs.len(),
                self.order,
                indices.as_mut_ptr(),
                indices.len(),
            )
        };
        answered(number, indices)
    }

    /// Writes a part for each point, by its index and weight, and returns the numbers of the points in order of index, equal
    /// indices by number. Refuses by [`Refused::Counts`], [`Refused::NoPoints`], [`Refused::Lengths`], [`Refused::Weight`], and
    /// leaves `partition` untouched then.
    ///
    /// Split i, for i from 1 to part_count - 1, is the smallest index present such that part_count times the weight at or below
    /// it reaches i times the weight of all; a part is the number of splits strictly below the point's index. So part_count
    /// times a part's weight is at most the weight of all and part_count times the heaviest weight on one index.
    ///
    /// ```
    /// # use skarvolm::HilbertCurve;
    /// let mut partition = [0; 4];
    /// let order = HilbertCurve::default().partition(&mut partition, &[7, 3, 5, 2], &[1; 4]);
    /// assert_eq!(partition, [1, 0, 1, 0]);
    /// assert_eq!(order, Ok(vec![3, 1, 2, 0]));
    /// ```
    pub fn partition(self, partition: &mut [u32], indices: &[u64], weights: &[u64]) -> Result<Vec<u32>, Refused> {
        let mut order = vec![0; indices.len()];
        // SAFETY: each pointer and length is a live slice's; `partition` and `order`, which are written, overlap nothing.
        let number = unsafe {
            sys::skarvolm_parts(
                self.part_count,
                indices.as_ptr(),
                indices.len(),
                weights.as_ptr(),
                weights.len(),
                partition.as_mut_ptr(),
                partition.len(),
                order.as_mut_ptr(),
                order.len(),
            )
        };
        answered(number, order)
    }

    /// Writes a part for each point along the curve, as [`HilbertCurve::partition`] does for their indices. Refuses as
    /// [`HilbertCurve::index_2d`] does, then as [`HilbertCurve::partition`].
    ///
    /// ```
    /// # use skarvolm::HilbertCurve;
    /// let xs = [0.0, 1.0, 0.0, 1.0, 9.0, 10.0, 10.0, 9.0];
    /// let ys = [0.0, 1.0, 10.0, 9.0, 1.0, 0.0, 10.0, 9.0];
    /// let mut partition = [0; 8];
    /// let curve = HilbertCurve { part_count: 4, ..Default::default() };
    /// assert!(curve.partition_2d(&mut partition, &xs, &ys, &[1; 8]).is_ok());
    /// assert_eq!(partition, [0, 0, 1, 1, 3, 3, 2, 2]);
    /// ```
    pub fn partition_2d(
        self,
        partition: &mut [u32],
        xs: &[f64],
        ys: &[f64],
        weights: &[u64],
    ) -> Result<Vec<u32>, Refused> {
        self.partition(partition, &self.index_2d(xs, ys)?, weights)
    }

    /// Writes a part for each point along the curve, as [`HilbertCurve::partition_2d`] does in 2D.
    pub fn partition_3d(
        self,
        partition: &mut [u32],
        xs: &[f64],
        ys: &[f64],
        zs: &[f64],
        weights: &[u64],
    ) -> Result<Vec<u32>, Refused> {
        self.partition(partition, &self.index_3d(xs, ys, zs)?, weights)
    }

    /// The index of each point on axes that are given, each as its low and high, so that an index stays where points are added.
    /// Refuses by [`Refused::Order`], [`Refused::NoPoints`], [`Refused::Lengths`]; then by [`Refused::Value`],
    /// [`Refused::Outside`], [`Refused::Thin`] for an axis, and by [`Refused::Value`], [`Refused::Outside`] for a point.
    ///
    /// ```
    /// # use skarvolm::HilbertCurve;
    /// let curve = HilbertCurve { order: 1, ..Default::default() };
    /// assert_eq!(curve.index_2d_in((0.0, 4.0), (0.0, 4.0), &[3.0], &[1.0]), Ok(vec![3]));
    /// assert_eq!(curve.index_2d_in((0.0, 4.0), (0.0, 4.0), &[3.0, 0.0], &[1.0, 4.0]), Ok(vec![3, 1]));
    /// ```
    pub fn index_2d_in(self, x: (f64, f64), y: (f64, f64), xs: &[f64], ys: &[f64]) -> Result<Vec<u64>, Refused> {
        let mut indices = vec![0; xs.len()];
        // SAFETY: each pointer and length is a live slice's, and `indices`, alone written, overlaps none of the others.
        let number = unsafe {
            sys::skarvolm_index_2d_in(
                x.0,
                x.1,
                y.0,
                y.1,
                xs.as_ptr(),
                xs.len(),
                ys.as_ptr(),
                ys.len(),
                self.order,
                indices.as_mut_ptr(),
                indices.len(),
            )
        };
        answered(number, indices)
    }

    /// The index of each point on axes that are given, as [`HilbertCurve::index_2d_in`] gives it.
    pub fn index_3d_in(
        self,
        x: (f64, f64),
        y: (f64, f64),
        z: (f64, f64),
        xs: &[f64],
        ys: &[f64],
        zs: &[f64],
    ) -> Result<Vec<u64>, Refused> {
        let mut indices = vec![0; xs.len()];
        // SAFETY: each pointer and length is a live slice's, and `indices`, alone written, overlaps none of the others.
        let number = unsafe {
            sys::skarvolm_index_3d_in(
                x.0,
                x.1,
                y.0,
                y.1,
                z.0,
                z.1,
                xs.as_ptr(),
                xs.len(),
                ys.as_ptr(),
                ys.len(),
                zs.as_ptr(),
                zs.len(),
                self.order,
                indices.as_mut_ptr(),
                indices.len(),
            )
        };
        answered(number, indices)
    }
}
