use crate::{HilbertCurve, Refused};

/// A point of two or of three coordinates: `[f64; 2]` and `[f64; 3]`, and nothing else.
pub trait Point: sealed::Sealed + Sized {
    /// The index of each point on a curve.
    #[doc(hidden)]
    fn index_all(curve: HilbertCurve, points: &[Self]) -> Result<Vec<u64>, Refused>;
}

mod sealed {
    pub trait Sealed {}
    impl Sealed for [f64; 2] {}
    impl Sealed for [f64; 3] {}
}

/// One coordinate of each point.
fn column<const D: usize>(points: &[[f64; D]], axis: usize) -> Vec<f64> {
    points.iter().map(|point| point[axis]).collect()
}

impl Point for [f64; 2] {
    fn index_all(curve: HilbertCurve, points: &[Self]) -> Result<Vec<u64>, Refused> {
        curve.index_2d(&column(points, 0), &column(points, 1))
    }
}

impl Point for [f64; 3] {
    fn index_all(curve: HilbertCurve, points: &[Self]) -> Result<Vec<u64>, Refused> {
        curve.index_3d(&column(points, 0), &column(points, 1), &column(points, 2))
    }
}

impl HilbertCurve {
    /// The index of each point, as [`HilbertCurve::index_2d`] and [`HilbertCurve::index_3d`] give it.
    ///
    /// ```
    /// # use skarvolm::HilbertCurve;
    /// let curve = HilbertCurve { order: 1, ..Default::default() };
    /// assert_eq!(curve.index_points(&[[0.0, 0.0], [0.0, 1.0], [1.0, 1.0]]), Ok(vec![0, 1, 2]));
    /// ```
    pub fn index_points<P: Point>(self, points: &[P]) -> Result<Vec<u64>, Refused> {
        P::index_all(self, points)
    }

    /// Writes a part for each point along the curve, as [`HilbertCurve::partition_2d`] and [`HilbertCurve::partition_3d`] do: what
    /// coupe's `partition` is called with, with whole weights.
    ///
    /// ```
    /// # use skarvolm::HilbertCurve;
    /// let points = [[0.0, 0.0], [1.0, 1.0], [0.0, 10.0], [1.0, 9.0], [9.0, 1.0], [10.0, 0.0], [10.0, 10.0], [9.0, 9.0]];
    /// let mut partition = [0; 8];
    /// let curve = HilbertCurve { part_count: 4, ..Default::default() };
    /// assert!(curve.partition_points(&mut partition, &points, &[1; 8]).is_ok());
    /// assert_eq!(partition, [0, 0, 1, 1, 3, 3, 2, 2]);
    /// ```
    pub fn partition_points<P: Point>(
        self,
        partition: &mut [u32],
        points: &[P],
        weights: &[u64],
    ) -> Result<Vec<u32>, Refused> {
        self.partition(partition, &self.index_points(points)?, weights)
    }
}
