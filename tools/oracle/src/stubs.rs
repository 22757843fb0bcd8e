//! What coupe's files ask of files that are not built: points, a box along the axes in place of the turned one, and the
//! names of traits that nothing here calls.

use std::cmp::Ordering;
use std::ops::Deref;

pub trait Average {
    fn avg(a: Self, b: Self) -> Self;
}

impl Average for u64 {
    fn avg(a: u64, b: u64) -> u64 {
        a / 2 + b / 2 + (a % 2 + b % 2) / 2
    }
}

#[derive(Clone, Copy, Debug)]
pub struct PointND<const D: usize>(pub [f64; D]);

pub type Point2D = PointND<2>;
pub type Point3D = PointND<3>;

#[derive(Debug)]
#[repr(C)]
pub struct Xy {
    pub x: f64,
    pub y: f64,
}

#[derive(Debug)]
#[repr(C)]
pub struct Xyz {
    pub x: f64,
    pub y: f64,
    pub z: f64,
}

impl Deref for PointND<2> {
    type Target = Xy;
    fn deref(&self) -> &Xy {
        // Two f64 in a row, both ways.
        unsafe { &*(self as *const Self as *const Xy) }
    }
}

impl Deref for PointND<3> {
    type Target = Xyz;
    fn deref(&self) -> &Xyz {
        unsafe { &*(self as *const Self as *const Xyz) }
    }
}

pub mod geometry {
    use super::PointND;

    #[derive(Debug)]
    pub struct BoundingBox<const D: usize> {
        pub p_min: PointND<D>,
        pub p_max: PointND<D>,
    }

    #[derive(Debug)]
    pub struct OrientedBoundingBox<const D: usize>(BoundingBox<D>);

    impl<const D: usize> OrientedBoundingBox<D> {
        pub fn from_points(points: &[PointND<D>]) -> Option<Self> {
            let first = *points.first()?;
            let mut bounds = BoundingBox {
                p_min: first,
                p_max: first,
            };
            for p in points {
                for i in 0..D {
                    bounds.p_min.0[i] = bounds.p_min.0[i].min(p.0[i]);
                    bounds.p_max.0[i] = bounds.p_max.0[i].max(p.0[i]);
                }
            }
            Some(Self(bounds))
        }

        pub fn aabb(&self) -> &BoundingBox<D> {
            &self.0
        }

        pub fn obb_to_aabb(&self, point: &PointND<D>) -> PointND<D> {
            *point
        }
    }
}

pub mod topology {
    pub trait Topology<E> {
        type Neighbors<'n>: Iterator<Item = (usize, E)>
        where
            Self: 'n;
        fn len(&self) -> usize;
        fn neighbors(&self, vertex: usize) -> Self::Neighbors<'_>;
    }
}

pub trait Partition<M> {
    type Metadata;
    type Error;
    fn partition(&mut self, part_ids: &mut [usize], data: M)
    -> Result<Self::Metadata, Self::Error>;
}

pub fn partial_cmp<W: PartialOrd>(a: &W, b: &W) -> Ordering {
    if a < b {
        Ordering::Less
    } else {
        Ordering::Greater
    }
}
