//! A small stand-in for the geometry crates that the Rust sources name.
//!
//! The half that is compared works on numbers and ranges; what needs real
//! curves and surfaces is the host's and is not reached, and says so if it is.

use crate::eighths;
use crate::records::{Curve, Vertex};
use std::marker::PhantomData;
use std::ops::{Add, Deref, Div, Index};

/// What a method says that only a host could answer.
const HOST: &str = "geometry is the host's";

/// The one macro that is taken from the crate of this name.
pub mod itertools {
    /// Every pair of items, the first list outermost.
    macro_rules! iproduct {
        ($outer:expr, $inner:expr) => {{
            let inner = $inner;
            let pairs = move |x| inner.clone().into_iter().map(move |y| (x, y));
            $outer.into_iter().flat_map(pairs)
        }};
    }
    pub(crate) use iproduct;
}

// --- points ---

/// A point of the parameter plane.
#[derive(Clone, Copy, Debug, PartialEq)]
pub struct Point2 {
    pub x: f64,
    pub y: f64,
}

/// A step in the parameter plane.
#[derive(Clone, Copy, Debug, PartialEq)]
pub struct Vector2 {
    pub x: f64,
    pub y: f64,
}

/// A point of space.
#[derive(Clone, Copy, Debug, PartialEq)]
pub struct Point3 {
    pub x: f64,
    pub y: f64,
    pub z: f64,
}

/// A derivative of a surface, of which only the host knows one.
#[derive(Clone, Copy, Debug, PartialEq)]
pub struct Vector3;

impl Point2 {
    pub fn new(x: f64, y: f64) -> Self {
        Point2 { x, y }
    }

    pub fn origin() -> Self {
        Point2 { x: 0.0, y: 0.0 }
    }

    pub fn to_vec(self) -> Vector2 {
        Vector2 {
            x: self.x,
            y: self.y,
        }
    }

    /// The squared distance, added in the order x, y.
    pub fn distance2(self, other: Self) -> f64 {
        let (x, y) = (other.x - self.x, other.y - self.y);
        x * x + y * y
    }
}

impl Vector2 {
    pub fn new(x: f64, y: f64) -> Self {
        Vector2 { x, y }
    }
}

impl Point3 {
    pub fn new(x: f64, y: f64, z: f64) -> Self {
        Point3 { x, y, z }
    }

    /// The squared distance, added in the order x, y, z.
    pub fn distance2(self, other: Self) -> f64 {
        let (x, y, z) = (other.x - self.x, other.y - self.y, other.z - self.z);
        x * x + y * y + z * z
    }
}

impl Add<Vector2> for Point2 {
    type Output = Point2;
    fn add(self, step: Vector2) -> Point2 {
        Point2::new(self.x + step.x, self.y + step.y)
    }
}

impl Div<f64> for Point2 {
    type Output = Point2;
    fn div(self, by: f64) -> Point2 {
        Point2::new(self.x / by, self.y / by)
    }
}

impl Index<usize> for Point2 {
    type Output = f64;
    fn index(&self, coordinate: usize) -> &f64 {
        [&self.x, &self.y][coordinate]
    }
}

/// Nearness up to a fixed tolerance.
pub trait Tolerance: Sized {
    fn near(&self, _other: &Self) -> bool {
        unimplemented!("{HOST}")
    }

    fn so_small(&self) -> bool {
        unimplemented!("{HOST}")
    }
}

impl Tolerance for f64 {}
impl Tolerance for Point2 {}
impl Tolerance for Vector3 {}

// --- curves ---

/// A curve that has a point for each parameter.
pub trait ParametricCurve: Clone {
    type Point;
    fn subs(&self, t: f64) -> Self::Point;
}

/// A curve with a first and a last parameter.
pub trait BoundedCurve: ParametricCurve {
    fn range_tuple(&self) -> (f64, f64);
}

/// A curve that can be cut in two: what is cut keeps the part before `t`, and
/// the part from `t` on comes back.
pub trait Cut: BoundedCurve {
    fn cut(&mut self, t: f64) -> Self;
}

/// A curve in space.
pub trait ParametricCurve3D: ParametricCurve<Point = Point3> {}
impl<C: ParametricCurve<Point = Point3>> ParametricCurve3D for C {}

/// A curve that can be drawn as a polyline.
pub trait ParameterDivision1D {
    type Point;
}

/// The mark of a search over one parameter.
pub enum D1 {}

/// Where a search shall begin.
pub enum Hint {
    At(f64),
    Nowhere,
}

impl From<f64> for Hint {
    fn from(t: f64) -> Self {
        Hint::At(t)
    }
}

impl From<Option<f64>> for Hint {
    fn from(t: Option<f64>) -> Self {
        t.map_or(Hint::Nowhere, Hint::At)
    }
}

/// The search for the parameter nearest to a point.
pub trait SearchNearestParameter<D> {
    type Point;
    fn search_nearest_parameter<H: Into<Hint>>(
        &self,
        _point: Self::Point,
        _hint: H,
        _trials: usize,
    ) -> Option<f64> {
        unimplemented!("{HOST}")
    }
}

/// A kind of point that a curve record can yield.
pub trait Place: Copy {
    fn on(curve: Curve, t: f64) -> Self;
}

/// A vertex holds the curve as it is at that moment, and the parameter.
impl Place for Vertex {
    fn on(curve: Curve, t: f64) -> Self {
        Vertex::Pending(curve, t)
    }
}

impl Place for Point3 {
    fn on(_curve: Curve, _t: f64) -> Self {
        unimplemented!("{HOST}")
    }
}

/// A curve record whose points are of type `P`.
#[derive(Clone, Copy, Debug, PartialEq)]
pub struct On<P> {
    pub curve: Curve,
    point: PhantomData<P>,
}

impl<P> From<Curve> for On<P> {
    fn from(curve: Curve) -> Self {
        On {
            curve,
            point: PhantomData,
        }
    }
}

impl<P: Place> ParametricCurve for On<P> {
    type Point = P;
    fn subs(&self, t: f64) -> P {
        P::on(self.curve, t)
    }
}

impl<P: Place> BoundedCurve for On<P> {
    fn range_tuple(&self) -> (f64, f64) {
        self.curve.range()
    }
}

impl<P: Place> Cut for On<P> {
    fn cut(&mut self, t: f64) -> Self {
        let (t0, t1) = self.curve.range();
        let behind = On::from(self.curve.over(t, t1));
        self.curve = self.curve.over(t0, t);
        behind
    }
}

/// A curve record that names the parameter k eighths of the way along it for
/// both ends of its range: whoever takes the middle of the two is there.
#[derive(Clone, Copy, Debug, PartialEq)]
pub struct Eighths<P> {
    on: On<P>,
    k: u32,
}

impl<P> Eighths<P> {
    pub fn of(curve: Curve, k: u32) -> Self {
        let on = On::from(curve);
        Eighths { on, k }
    }
}

impl<P: Place> ParametricCurve for Eighths<P> {
    type Point = P;
    fn subs(&self, t: f64) -> P {
        self.on.subs(t)
    }
}

impl<P: Place> BoundedCurve for Eighths<P> {
    fn range_tuple(&self) -> (f64, f64) {
        let (t0, t1) = self.on.range_tuple();
        let t = eighths::parameter(t0, t1, self.k);
        (t, t)
    }
}

impl<P: Place> Cut for Eighths<P> {
    fn cut(&mut self, t: f64) -> Self {
        let (on, k) = (self.on.cut(t), self.k);
        Eighths { on, k }
    }
}

/// A curve that stands for a record.
pub trait Recorded {
    fn record(&self) -> Curve;
}

impl<P> Recorded for On<P> {
    fn record(&self) -> Curve {
        self.curve
    }
}

impl<P> Recorded for Eighths<P> {
    fn record(&self) -> Curve {
        self.on.curve
    }
}

impl<P> ParameterDivision1D for On<P> {
    type Point = P;
}

impl<P> SearchNearestParameter<D1> for On<P> {
    type Point = P;
}

/// A straight line from one point to another.
#[derive(Clone, Copy, Debug, PartialEq)]
pub struct Line<P>(pub P, pub P);

impl Line<Point2> {
    pub fn intersection(self, _other: Self) -> Option<(f64, f64, Point2)> {
        unimplemented!("{HOST}")
    }

    pub fn distance_to_point(&self, _point: Point2) -> f64 {
        unimplemented!("{HOST}")
    }

    pub fn distance_to_point_as_segment(&self, _point: Point2) -> f64 {
        unimplemented!("{HOST}")
    }
}

impl SearchNearestParameter<D1> for Line<Point2> {
    type Point = Point2;
}

/// A curve drawn on a surface.
#[derive(Clone, Copy, Debug)]
pub struct PCurve<C, S> {
    curve: C,
    surface: S,
}

impl<C, S> PCurve<C, S> {
    pub fn new(curve: C, surface: S) -> Self {
        PCurve { curve, surface }
    }

    pub fn curve(&self) -> &C {
        &self.curve
    }

    pub fn subs(&self, _t: f64) -> Point3 {
        unimplemented!("{HOST}")
    }
}

impl<C, S> ParameterDivision1D for PCurve<C, S> {
    type Point = Point3;
}

impl<C, S> SearchNearestParameter<D1> for PCurve<C, S> {
    type Point = Point3;
}

/// A line on a numbered surface is a seam, whose parameter runs from 0 to 1.
impl<P> From<PCurve<Line<Point2>, Surface>> for On<P> {
    fn from(drawn: PCurve<Line<Point2>, Surface>) -> Self {
        let Line(p, q) = drawn.curve;
        On::from(Curve::Seam {
            surface: drawn.surface.number,
            p: [p.x, p.y],
            q: [q.x, q.y],
            t0: 0.0,
            t1: 1.0,
        })
    }
}

// --- polylines ---

/// A row of points.
#[derive(Clone, Debug, PartialEq)]
pub struct PolylineCurve<P>(pub Vec<P>);

impl<P> PolylineCurve<P> {
    /// Polylines are only carried along beside the edges: they stay empty.
    pub fn from_curve<C>(_curve: &C, _range: (f64, f64), _tolerance: f64) -> Self
    where
        C: ParameterDivision1D<Point = P>,
    {
        PolylineCurve(Vec::new())
    }

    pub fn inverse(&self) -> Self {
        unimplemented!("{HOST}")
    }
}

impl PolylineCurve<Point2> {
    /// The area is the host's word: a polyline that is made to be asked for
    /// it has three points, and the x of the middle one is the area.
    pub fn area(&self) -> f64 {
        match self.0[..] {
            [_, told, _] => told.x,
            _ => unimplemented!("{HOST}"),
        }
    }

    pub fn include(&self, _point: Point2) -> bool {
        unimplemented!("{HOST}")
    }
}

impl<P> Deref for PolylineCurve<P> {
    type Target = Vec<P>;
    fn deref(&self) -> &Vec<P> {
        &self.0
    }
}

impl<P> AsRef<[P]> for PolylineCurve<P> {
    fn as_ref(&self) -> &[P] {
        &self.0
    }
}

impl<P> IntoIterator for PolylineCurve<P> {
    type Item = P;
    type IntoIter = std::vec::IntoIter<P>;
    fn into_iter(self) -> Self::IntoIter {
        self.0.into_iter()
    }
}

impl<'a, P> IntoIterator for &'a PolylineCurve<P> {
    type Item = &'a P;
    type IntoIter = std::slice::Iter<'a, P>;
    fn into_iter(self) -> Self::IntoIter {
        self.0.iter()
    }
}

// --- surfaces ---

/// The least and the greatest parameter, where there are such.
pub type Range = Option<(f64, f64)>;

/// A surface that may repeat itself.
pub trait ParametricSurface: Clone {
    fn u_period(&self) -> Option<f64>;
    fn v_period(&self) -> Option<f64>;
}

/// A surface in space.
pub trait ParametricSurface3D: ParametricSurface {
    fn try_range_tuple(&self) -> (Range, Range) {
        unimplemented!("{HOST}")
    }

    fn uder(&self, _u: f64, _v: f64) -> Vector3 {
        unimplemented!("{HOST}")
    }

    fn vder(&self, _u: f64, _v: f64) -> Vector3 {
        unimplemented!("{HOST}")
    }
}

/// A surface that is only known by its number.
#[derive(Clone, Copy, Debug, PartialEq)]
pub struct Surface {
    pub number: u32,
}

impl ParametricSurface for Surface {
    fn u_period(&self) -> Option<f64> {
        unimplemented!("{HOST}")
    }

    fn v_period(&self) -> Option<f64> {
        unimplemented!("{HOST}")
    }
}

impl ParametricSurface3D for Surface {}
