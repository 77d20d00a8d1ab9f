//! Stand-ins for names whose files are not taken, so that the nine files compile. None of them is
//! reached by `Runner::run` and `to_color_image` with `diagonal` off; each panics when touched.

use std::ops::{Add, Div, Mul, Sub};

use crate::{BinaryImage, PointI32};

fn absent(name: &str) -> ! {
    panic!("{name} is a stand-in: its file is not part of the reference");
}

/// The trait of the crate flo_curves that `Point2` implements.
pub trait Coordinate: Sized {
    fn from_components(components: &[f64]) -> Self;
    fn origin() -> Self;
    fn len() -> usize;
    fn get(&self, index: usize) -> f64;
    fn from_biggest_components(p1: Self, p2: Self) -> Self;
    fn from_smallest_components(p1: Self, p2: Self) -> Self;
}

impl Coordinate for f64 {
    fn from_components(_: &[f64]) -> Self {
        absent("flo_curves::Coordinate")
    }
    fn origin() -> Self {
        absent("flo_curves::Coordinate")
    }
    fn len() -> usize {
        absent("flo_curves::Coordinate")
    }
    fn get(&self, _: usize) -> f64 {
        absent("flo_curves::Coordinate")
    }
    fn from_biggest_components(_: Self, _: Self) -> Self {
        absent("flo_curves::Coordinate")
    }
    fn from_smallest_components(_: Self, _: Self) -> Self {
        absent("flo_curves::Coordinate")
    }
}

/// The second trait of the crate flo_curves that `Point2` implements.
pub trait Coordinate2D {
    fn x(&self) -> f64;
    fn y(&self) -> f64;
}

/// The trait of the crate num-traits that bounds the components of `Point2`.
pub trait Float:
    Copy + PartialEq + Add<Output = Self> + Sub<Output = Self> + Mul<Output = Self> + Div<Output = Self>
{
    fn zero() -> Self {
        absent("num_traits::Float")
    }
    fn sin(self) -> Self {
        absent("num_traits::Float")
    }
    fn cos(self) -> Self {
        absent("num_traits::Float")
    }
    fn sqrt(self) -> Self {
        absent("num_traits::Float")
    }
    fn atan2(self, _: Self) -> Self {
        absent("num_traits::Float")
    }
}

impl Float for f32 {}
impl Float for f64 {}

/// A point in polar form.
pub struct Polar2<T> {
    pub a: T,
    pub r: T,
}

/// A point in polar form with `f64` components.
pub type PolarF64 = Polar2<f64>;

/// A two-dimensional array, which only `ScalarField` uses.
#[derive(Clone, Default)]
pub struct Field<T> {
    items: Vec<T>,
}

impl<T> Field<T> {
    pub fn with_default(_width: usize, _height: usize) -> Self {
        absent("Field")
    }
    pub fn index_at(&self, _x: usize, _y: usize) -> usize {
        absent("Field")
    }
    pub fn get(&self, _index: usize) -> Option<T> {
        absent("Field")
    }
    pub fn replace(&mut self, _index: usize, item: T) {
        self.items = vec![item];
        absent("Field")
    }
}

/// Grouping by overlap, which only `merge_expand` uses.
pub mod disjoint_sets {
    pub fn group_by_cached_key<T, K>(
        _items: Vec<T>,
        _key: impl Fn(&T) -> K,
        _near: impl Fn(&K, &K) -> bool,
    ) -> Vec<Vec<T>> {
        super::absent("disjoint_sets")
    }
}

/// How paths are simplified.
#[derive(Clone, Copy)]
pub enum PathSimplifyMode {
    None,
}

/// A path of points with `i32` components.
pub struct PathI32 {
    pub path: Vec<PointI32>,
}

/// One path of a compound path.
pub enum CompoundPathElement {
    PathI32(PathI32),
    Other,
}

/// The outline of a cluster.
pub struct CompoundPath {
    pub paths: Vec<CompoundPathElement>,
}

impl CompoundPath {
    #[allow(clippy::new_without_default)]
    pub fn new() -> Self {
        absent("CompoundPath")
    }
    pub fn append(&mut self, _other: Self) {
        absent("CompoundPath")
    }
    pub fn reduce(&self, _tolerance: f64) -> Self {
        absent("CompoundPath")
    }
}

/// Clusters of binary images.
pub mod clusters {
    use super::{absent, CompoundPath, PathSimplifyMode};
    use crate::{BinaryImage, BoundingRect, PointI32};

    pub struct Cluster {
        pub rect: BoundingRect,
    }

    impl Cluster {
        pub fn size(&self) -> usize {
            absent("clusters::Cluster")
        }
        pub fn boundary(&self) -> Vec<PointI32> {
            absent("clusters::Cluster")
        }
        pub fn to_binary_image(&self) -> BinaryImage {
            absent("clusters::Cluster")
        }
        pub fn image_to_compound_path(
            _offset: &PointI32,
            _image: &BinaryImage,
            _mode: PathSimplifyMode,
            _corner_threshold: f64,
            _length_threshold: f64,
            _max_iterations: usize,
            _splice_threshold: f64,
        ) -> CompoundPath {
            absent("clusters::Cluster")
        }
    }
}

impl BinaryImage {
    pub fn to_clusters(&self, _diagonal: bool) -> Vec<clusters::Cluster> {
        absent("BinaryImage::to_clusters")
    }
    pub fn diff(&self, _other: &Self) -> Self {
        absent("BinaryImage::diff")
    }
}

/// Erosion of shapes.
pub mod morphology {
    use crate::BinaryImage;

    pub fn erode_interior(_image: &BinaryImage, _depth: usize) -> BinaryImage {
        super::absent("shape::morphology")
    }
}

/// Filling of triangles.
pub mod rasterizer {
    use crate::{BinaryImage, PointI32};

    pub fn rasterize_triangle(_corners: &[PointI32; 3], _image: &mut BinaryImage) {
        super::absent("shape::rasterizer")
    }
}
