//! The way of the pipe, radius 1 and height 4. What a host evaluates on its
//! geometry stands here as numbers: points, uv points, the ends of the rims.

use std::error::Error;
use std::f64::consts::TAU;

use kaugrenna::lent::{EDGE_FLOATS, EDGE_NUMBERS, GIVEN, SPAN};
use kaugrenna::lent::{VERTEX_FLOATS, VERTEX_NUMBERS};
use kaugrenna::{connect_open_boundaries, find_non_simple_wire_divisor, nearest_copy};
use kaugrenna::{nearest_correction, sort_wires, split_boundaries_by_divisor};
use kaugrenna::{split_closed_edges, Divisor, OwnedTables, OwnedWires};
use kaugrenna::{Preparation, Room, Stretch, Wires};

/// Once round the pipe.
pub const TURN: f64 = TAU;
/// Its height.
pub const HEIGHT: f64 = 4.0;

/// The face of the pipe: its tables, the uv points of its vertices, its wires.
pub struct Face {
    pub tables: OwnedTables,
    pub points: Vec<[f64; 2]>,
    pub wires: OwnedWires,
}

type Outcome<T> = Result<T, Box<dyn Error>>;

/// A point on a rim, which is a curve: its parameter is u, and curve 0 is the
/// lower rim.
pub fn on_rim(curve: u32, t: f64) -> [f64; 2] {
    [t, if curve == 0 { 0.0 } else { HEIGHT }]
}

/// The uv point of a pending vertex, evaluated.
fn evaluated(tables: &OwnedTables, vertex: usize) -> [f64; 2] {
    let numbers = &tables.vertex_numbers[vertex * VERTEX_NUMBERS..];
    let floats = &tables.vertex_floats[vertex * VERTEX_FLOATS..];
    on_rim(numbers[2], floats[6])
}

/// Gives the vertices with these uv points; rows past them are room.
fn give_vertices(tables: &mut OwnedTables, points: &[[f64; 2]]) {
    tables.vertices = points.len();
    tables.vertex_numbers = vec![GIVEN; 4 * VERTEX_NUMBERS];
    let given = |[u, v]: &[f64; 2]| [u.cos(), u.sin(), *v, 0.0, 0.0, 0.0, 0.0];
    tables.vertex_floats = points.iter().flat_map(given).collect();
    tables.vertex_floats.resize(4 * VERTEX_FLOATS, 0.0);
}

/// The numbers of a rim: the closed edge at the vertex of its number, a span of
/// the curve of its number, to be welded with a single bevel.
fn rim(number: u32) -> [u32; EDGE_NUMBERS] {
    let bevel = Preparation::SingleBevel.into();
    [number, number, SPAN, number, bevel]
}

/// The pipe as a drawing office sends it: the rims 0 and 1, with the wires 0+
/// and 1-, and room for their second halves and for two seams.
fn burner_pipe() -> Face {
    let mut tables = OwnedTables::default();
    let points = [0, 1].map(|curve| on_rim(curve, 0.0)).to_vec();
    give_vertices(&mut tables, &points);
    tables.edges = 2;
    tables.edge_numbers = [0, 1].map(rim).concat();
    tables.edge_numbers.resize(6 * EDGE_NUMBERS, 0);
    tables.edge_floats = vec![0.0; 6 * EDGE_FLOATS];
    tables.edge_floats[5] = TURN;
    tables.edge_floats[11] = TURN;
    let mut uses = vec![0; 8];
    uses[1] = 3;
    let mut lengths = vec![0; 8];
    lengths[..2].fill(1);
    let wires = OwnedWires {
        uses,
        lengths,
        count: 2,
    };
    Face {
        tables,
        points,
        wires,
    }
}

/// The rims cut, k eighths of the way round, and the new vertices evaluated.
fn cut_rims(face: &mut Face, k: u32) -> Outcome<()> {
    let counts = split_closed_edges(face.tables.lend_mut(), face.wires.lend_mut(), k)?;
    face.tables.edges = counts.edges;
    let new = face.tables.vertices..counts.vertices;
    let evaluated = new.map(|vertex| evaluated(&face.tables, vertex));
    face.points.extend(evaluated);
    give_vertices(&mut face.tables, &face.points);
    Ok(())
}

/// The two rims, once they are found to be the open wires.
fn rims(face: &Face) -> Outcome<[Vec<u32>; 2]> {
    let lower = [0.0, 0.0, TURN, 0.0, 0.0];
    let upper = [TURN, HEIGHT, 0.0, HEIGHT, 0.0];
    let (mut open, mut closed) = ([0; 2], [0; 2]);
    let sorted = sort_wires(&[lower, upper].concat(), 2, &mut open, &mut closed)?;
    sorted.ok_or("sorting: not just two wires are open")?;
    let [first, second] = [0, 1].map(|rim| face.wires.lengths[rim] as usize);
    let (lower, rest) = face.wires.uses.split_at(first);
    Ok([lower.into(), rest[..second].into()])
}

/// The face split along the seam between two vertices, where as many of its
/// wires as are asked for, from the first on, are rebuilt.
fn split(face: &mut Face, ends: [u32; 2], rebuilt: usize) -> Outcome<()> {
    let [p, q] = ends.map(|vertex| face.points[vertex as usize]);
    let near = nearest_copy(p, q, [Some(TURN), None])?;
    let divisor = Divisor {
        vertices: &ends,
        points: &[p, near].concat(),
        count: 2,
        surface: 0,
    };
    let (mut uses, mut lengths) = (vec![0; 8], vec![0; 8]);
    let room = Room {
        uses: &mut uses,
        lengths: &mut lengths,
    };
    let wires = face.wires.lend();
    let part = Wires {
        count: rebuilt,
        ..wires
    };
    let built = split_boundaries_by_divisor(face.tables.edges_mut(), [wires, part], divisor, room)?;
    face.tables.edges = built.edges;
    face.wires = OwnedWires {
        uses,
        lengths,
        count: built.wires,
    };
    Ok(())
}

/// The pipe with its contours, its rims cut k eighths of the way round.
pub fn healed(k: u32) -> Outcome<Face> {
    let mut face = burner_pipe();
    cut_rims(&mut face, k)?;
    let rims = rims(&face)?;
    let [first, second] = rims.each_ref().map(|rim| Stretch::from(&rim[..]));
    let ends = nearest_correction(face.tables.lend(), first, second, 0)?;
    let ends = ends.ok_or("nearest ends: a rim is empty")?;
    // Both rims are open, so that no wire is to be rebuilt.
    split(&mut face, ends, 0)?;
    let edges = face.tables.edges();
    let joined = connect_open_boundaries(edges, [first, second], face.wires.lend_mut(), ends)?;
    joined.ok_or("join: an end is not found")?;
    let ends = find_non_simple_wire_divisor(face.tables.lend(), face.wires.lend())?;
    let ends = ends.ok_or("search: no wire uses an edge twice")?;
    let all = face.wires.count;
    split(&mut face, ends, all)?;
    Ok(face)
}
