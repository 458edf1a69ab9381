//! The Rust's calls over its own structures, made ready beforehand, so that a
//! clock can go round the calls alone. What grows in a call has room to grow
//! in, as it would mostly have in the life of a vector.

use super::split_closed_faces::ways;
use super::*;
use std::fmt::Debug;

/// One call, made ready in the structures of the side that makes it.
pub trait Ready {
    /// What the call answers, in a form that both sides have.
    type Answer: PartialEq + Debug;

    /// Takes the input of another over into the room that is there already,
    /// where a call changes its input.
    fn renew(&mut self, _from: &Self) {}

    /// Makes the call.
    fn run(&mut self);

    /// What came of the call.
    fn answer(&self) -> Self::Answer;
}

/// A copy with room for so many more.
fn roomy<T>(mut items: Vec<T>, more: usize) -> Vec<T> {
    items.reserve_exact(more);
    items
}

/// The vertices of points.
fn given(points: &[Point3]) -> Vec<records::Vertex> {
    let vertex = |point: &Point3| records::Vertex::Given(point.x, point.y, point.z);
    points.iter().map(vertex).collect()
}

/// The closed-edge pass, over wires that stand in one face.
pub struct Pass<C> {
    shell: Shell<records::Vertex, C, ()>,
    /// Those of all edges after the pass, which the Rust does not see.
    preparations: Vec<Preparation>,
}

impl Pass<On<records::Vertex>> {
    /// The pass over a shell that grows by so many vertices and edges.
    pub fn of(shell: &records::Shell, more: usize) -> Self {
        Pass::over(shell, more, On::from)
    }
}

impl Pass<Eighths<records::Vertex>> {
    /// The same over curves that name the parameter for a k in place of their
    /// range.
    pub fn at(shell: &records::Shell, more: usize, k: u32) -> Self {
        Pass::over(shell, more, |curve| Eighths::of(curve, k))
    }
}

impl<C> Pass<C> {
    fn over(shell: &records::Shell, more: usize, curve: impl Fn(records::Curve) -> C) -> Self {
        let preparations = preparations(&shell.edges, of_closed(&shell.edges));
        let shell = Shell {
            vertices: roomy(shell.vertices.clone(), more),
            edges: roomy(edges_over(&shell.edges, curve), more),
            faces: deal(&shell.wires, 1),
        };
        Pass {
            shell,
            preparations,
        }
    }
}

impl<C: Closable> Ready for Pass<C> {
    type Answer = records::Shell;

    fn renew(&mut self, from: &Self) {
        let (shell, from) = (&mut self.shell, &from.shell);
        shell.vertices.clone_from(&from.vertices);
        shell.edges.clone_from(&from.edges);
        let boundaries = &mut shell.faces[0].boundaries;
        boundaries.clone_from(&from.faces[0].boundaries);
    }

    fn run(&mut self) {
        split_closed_edges::split_closed_edges(&mut self.shell);
    }

    fn answer(&self) -> records::Shell {
        records::Shell {
            vertices: self.shell.vertices.clone(),
            edges: from_edges(&self.shell.edges, &self.preparations),
            wires: from_wires(&self.shell.faces[0].boundaries),
        }
    }
}

/// Unwrapping, with a period.
pub struct Unwrap {
    pub u: f64,
    pub u0: f64,
    pub period: f64,
    pub nearest: f64,
}

impl Ready for Unwrap {
    type Answer = u64;

    fn run(&mut self) {
        self.nearest = ways::unwrapped(self.u, self.u0, self.period);
    }

    fn answer(&self) -> u64 {
        self.nearest.to_bits()
    }
}

/// Nearest copy.
pub struct NearestCopy {
    p: Point2,
    q: Point2,
    periods: (Option<f64>, Option<f64>),
    copy: Point2,
}

impl NearestCopy {
    pub fn of(p: [f64; 2], q: [f64; 2], periods: [Option<f64>; 2]) -> Self {
        NearestCopy {
            p: point2(p),
            q: point2(q),
            periods: periods.into(),
            copy: Point2::origin(),
        }
    }
}

impl Ready for NearestCopy {
    type Answer = [u64; 2];

    fn run(&mut self) {
        self.copy = ways::nearest(self.p, self.q, self.periods);
    }

    fn answer(&self) -> [u64; 2] {
        [self.copy.x, self.copy.y].map(f64::to_bits)
    }
}

/// A wire that is only known by its ends and its area.
fn line(first: [f64; 2], last: [f64; 2], area: f64) -> PolylineCurve<Point2> {
    PolylineCurve(vec![point2(first), Point2::new(area, 0.0), point2(last)])
}

/// Kind of wire.
pub struct WireKind {
    poly: PolylineCurve<Point2>,
    kind: u32,
}

impl WireKind {
    pub fn of(first: [f64; 2], last: [f64; 2], area: f64) -> Self {
        WireKind {
            poly: line(first, last, area),
            kind: u32::MAX,
        }
    }
}

impl Ready for WireKind {
    type Answer = u32;

    fn run(&mut self) {
        self.kind = ways::kind(&self.poly);
    }

    fn answer(&self) -> u32 {
        self.kind
    }
}

/// The numbers of open and of closed wires.
pub type Groups = Option<[Vec<u32>; 2]>;

/// Sorting of wires.
pub struct Sort {
    polys: Vec<PolylineCurve<Point2>>,
    groups: Option<(Vec<usize>, Vec<usize>)>,
}

impl Sort {
    /// Over rows of five floats: first u, v, last u, v and area.
    pub fn of(ends: &[[f64; 5]]) -> Self {
        let poly = |&[u0, v0, u1, v1, area]: &[f64; 5]| line([u0, v0], [u1, v1], area);
        Sort {
            polys: ends.iter().map(poly).collect(),
            groups: None,
        }
    }
}

impl Ready for Sort {
    type Answer = Groups;

    fn renew(&mut self, _from: &Self) {
        self.groups = None;
    }

    fn run(&mut self) {
        self.groups = ways::sorted(&self.polys);
    }

    fn answer(&self) -> Groups {
        let (open, closed) = self.groups.as_ref()?;
        let short = |numbers: &Vec<usize>| numbers.iter().map(|&number| number as u32).collect();
        Some([open, closed].map(short))
    }
}

/// Nearest ends.
pub struct NearestEnds {
    vertices: Vec<Point3>,
    edges: Vec<Edge<On<Point3>>>,
    stretches: [Wire; 2],
    v0: usize,
    found: Option<(usize, usize)>,
}

impl NearestEnds {
    /// Over a shell whose two wires are the stretches.
    pub fn of(shell: &records::Shell, v0: u32) -> Self {
        NearestEnds {
            vertices: points(&shell.vertices),
            edges: to_edges(&shell.edges),
            stretches: [to_wire(&shell.wires[0]), to_wire(&shell.wires[1])],
            v0: v0 as usize,
            found: None,
        }
    }
}

impl Ready for NearestEnds {
    type Answer = Option<[u32; 2]>;

    fn run(&mut self) {
        let stretches = self.stretches.each_ref().map(|wire| &wire[..]);
        self.found = ways::nearest_ends(self.v0, stretches, &self.vertices, &self.edges);
    }

    fn answer(&self) -> Option<[u32; 2]> {
        self.found.map(numbers)
    }
}

/// The non-simple search.
pub struct Search {
    vertices: Vec<Point3>,
    edges: Vec<Edge<On<Point3>>>,
    wires: Vec<Wire>,
    found: Option<(usize, usize)>,
}

impl Search {
    pub fn of(shell: &records::Shell) -> Self {
        Search {
            vertices: points(&shell.vertices),
            edges: to_edges(&shell.edges),
            wires: to_wires(&shell.wires),
            found: None,
        }
    }
}

impl Ready for Search {
    type Answer = Option<[u32; 2]>;

    fn run(&mut self) {
        self.found = ways::divisor(&self.wires, &self.edges, &self.vertices);
    }

    fn answer(&self) -> Option<[u32; 2]> {
        self.found.map(numbers)
    }
}

/// One cut. The list of the one place is made by the Rust's caller.
pub struct OneCut {
    vertices: Vec<Point3>,
    edges: Vec<Edge<On<Point3>>>,
    lines: Vec<PolylineCurve<Point3>>,
    wires: Vec<Wire>,
    edge: usize,
    cuts: Vec<(f64, Point3)>,
    /// Those of all edges after the cut, which the Rust does not see.
    preparations: Vec<Preparation>,
}

impl OneCut {
    pub fn of(shell: &records::Shell, edge: u32, [t, x, y, z]: [f64; 4]) -> Self {
        OneCut {
            vertices: roomy(points(&shell.vertices), 1),
            edges: roomy(to_edges(&shell.edges), 1),
            lines: roomy(no_lines(shell.edges.len()), 1),
            wires: to_wires(&shell.wires),
            edge: edge as usize,
            cuts: vec![(t, Point3::new(x, y, z))],
            preparations: preparations(&shell.edges, [shell.edges[edge as usize].preparation]),
        }
    }
}

impl Ready for OneCut {
    type Answer = records::Shell;

    fn renew(&mut self, from: &Self) {
        self.vertices.clone_from(&from.vertices);
        self.edges.clone_from(&from.edges);
        self.lines.clone_from(&from.lines);
        self.wires.clone_from(&from.wires);
        self.cuts.clone_from(&from.cuts);
    }

    fn run(&mut self) {
        let tables = (&mut self.edges, &mut self.lines, &mut self.vertices);
        let cuts = std::mem::take(&mut self.cuts);
        ways::cut(self.edge, cuts, tables, &mut self.wires);
    }

    fn answer(&self) -> records::Shell {
        records::Shell {
            vertices: given(&self.vertices),
            edges: from_edges(&self.edges, &self.preparations),
            wires: from_wires(&self.wires),
        }
    }
}

/// One cut, made for each of several from the last to the first.
pub struct SeveralCuts {
    one: OneCut,
    /// A list of one place for each, as the Rust's caller makes it.
    cuts: Vec<Vec<(f64, Point3)>>,
    /// How many vertices and edges there were.
    before: [usize; 2],
}

impl SeveralCuts {
    pub fn of(shell: &records::Shell, edge: u32, cuts: &[[f64; 4]]) -> Self {
        let (more, mut one) = (cuts.len(), OneCut::of(shell, edge, cuts[0]));
        one.vertices = roomy(one.vertices, more);
        one.edges = roomy(one.edges, more);
        one.lines = roomy(one.lines, more);
        let pieces = vec![shell.edges[edge as usize].preparation; more];
        one.preparations = preparations(&shell.edges, pieces);
        let list = |&[t, x, y, z]: &[f64; 4]| vec![(t, Point3::new(x, y, z))];
        SeveralCuts {
            one,
            cuts: cuts.iter().rev().map(list).collect(),
            before: [shell.vertices.len(), shell.edges.len()],
        }
    }
}

impl Ready for SeveralCuts {
    type Answer = records::Shell;

    fn renew(&mut self, from: &Self) {
        self.one.renew(&from.one);
        self.cuts.clone_from(&from.cuts);
    }

    fn run(&mut self) {
        for list in &mut self.cuts {
            self.one.cuts = std::mem::take(list);
            self.one.run();
        }
    }

    /// With all numbers along the curve, as the port has them.
    fn answer(&self) -> records::Shell {
        turned::round(self.one.answer(), self.before)
    }
}

/// A split of a face that is rebuilt whole.
pub struct Split {
    edges: Vec<Edge<On<Point3>>>,
    lines: Vec<PolylineCurve<Point3>>,
    face: Vec<Wire>,
    list: Vec<(f64, (usize, Point2))>,
    surface: Surface,
    built: Vec<Wire>,
    /// Those of all edges after the split, which the Rust does not see.
    preparations: Vec<Preparation>,
}

impl Split {
    pub fn of(shell: &records::Shell, list: &[(u32, [f64; 2])], surface: u32) -> Self {
        let more = list.len() / 2;
        Split {
            edges: roomy(to_edges(&shell.edges), more),
            lines: roomy(no_lines(shell.edges.len()), more),
            face: to_wires(&shell.wires),
            list: to_list(list),
            surface: Surface { number: surface },
            built: Vec::new(),
            preparations: preparations(&shell.edges, of_seams(list)),
        }
    }
}

impl Ready for Split {
    type Answer = Rebuilt;

    fn renew(&mut self, from: &Self) {
        self.edges.clone_from(&from.edges);
        self.lines.clone_from(&from.lines);
        self.built = Vec::new();
    }

    fn run(&mut self) {
        let tables = (&mut self.edges, &mut self.lines);
        self.built = ways::split(
            [&self.face; 2].map(|v| &v[..]),
            &self.list,
            self.surface,
            tables,
        );
    }

    fn answer(&self) -> Rebuilt {
        let edges = from_edges(&self.edges, &self.preparations);
        (edges, from_wires(&self.built))
    }
}

/// A join. Its wires are handed over to it.
pub struct Join {
    edges: Vec<Edge<On<Point3>>>,
    open: Vec<Wire>,
    new: Vec<Wire>,
    ends: (usize, usize),
    joined: Vec<Wire>,
    found: Option<()>,
}

impl Join {
    /// Over a shell whose first two wires are open and the others new.
    pub fn of(shell: &records::Shell, [v0, v1]: [u32; 2]) -> Self {
        let (open, new) = shell.wires.split_at(2);
        Join {
            edges: to_edges(&shell.edges),
            open: to_wires(open),
            new: to_wires(new),
            ends: (v0 as usize, v1 as usize),
            joined: Vec::new(),
            found: None,
        }
    }
}

impl Ready for Join {
    type Answer = Option<Vec<Vec<u32>>>;

    fn renew(&mut self, from: &Self) {
        self.open.clone_from(&from.open);
        self.new.clone_from(&from.new);
        self.joined = Vec::new();
    }

    fn run(&mut self) {
        let [open, new] = [&mut self.open, &mut self.new].map(std::mem::take);
        self.found = ways::connect(&mut self.joined, new, self.ends, &self.edges, open);
    }

    fn answer(&self) -> Option<Vec<Vec<u32>>> {
        self.found.map(|()| from_wires(&self.joined))
    }
}
