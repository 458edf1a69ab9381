//! The unrolled plate: each contour in its own colour, an arrow and a number at
//! each use.

use kaugrenna::lent::{EDGE_FLOATS, EDGE_NUMBERS};
use kaugrenna::{get_mindiff, OwnedTables, Refusal, Use};

use crate::pipe::{on_rim, Face, HEIGHT, TURN};

/// Pixels for each unit of length, beside the plate, and between an arrow and
/// its edge.
const UNIT: f64 = 100.0;
const MARGIN: f64 = 60.0;
const GAP: f64 = 14.0;

const COLOURS: [&str; 4] = ["#b03020", "#1f5fa8", "#2f7d32", "#7a4aa0"];

/// What stands before the contours: the size of the picture, and the plate.
const BEGINNING: &str = r##"<svg xmlns="http://www.w3.org/2000/svg" width="748" height="520" viewBox="0 0 748 520" font-family="sans-serif" font-size="14" text-anchor="middle" dominant-baseline="middle">
<title>Burner pipe, unrolled: the contours that the torch follows</title>
<rect x="60" y="60" width="628" height="400" fill="#f3f3f3" stroke="#888888"/>
"##;

/// A use on the plate: the uv points of its two ends, in its direction.
pub type Line = [[f64; 2]; 2];

/// A piece of a rim, or a seam, which has its uv points.
pub fn line_of(tables: &OwnedTables, used: Use) -> Line {
    let edge = used.edge as usize;
    let numbers = &tables.edge_numbers[edge * EDGE_NUMBERS..];
    let floats = &tables.edge_floats[edge * EDGE_FLOATS..];
    let [from, to] = if numbers[2] == 1 {
        [[floats[0], floats[1]], [floats[2], floats[3]]]
    } else {
        [4, 5].map(|end| on_rim(numbers[3], floats[end]))
    };
    if used.reversed {
        [to, from]
    } else {
        [from, to]
    }
}

/// The line moved round the pipe so that it begins as near to u as it can.
fn unwrapped([from, to]: Line, u: f64) -> Result<Line, Refusal> {
    let step = get_mindiff(from[0], u, Some(TURN))? - from[0];
    Ok([[from[0] + step, from[1]], [to[0] + step, to[1]]])
}

/// The uses of each contour with their lines, each beginning where the one
/// before it ends.
pub fn contours(face: &Face) -> Result<Vec<Vec<(Use, Line)>>, Refusal> {
    let mut uses = face.wires.uses.iter();
    let lengths = face.wires.lengths[..face.wires.count].iter();
    let contour = |&length: &u32| {
        let mut u = 0.0;
        let line = |&used: &u32| {
            let used = Use::of(used);
            let line = unwrapped(line_of(&face.tables, used), u)?;
            u = line[1][0];
            Ok((used, line))
        };
        uses.by_ref().take(length as usize).map(line).collect()
    };
    lengths.map(contour).collect()
}

/// The u at which the plate begins on the left: the plate reaches from the cut
/// once round the pipe to the cut.
pub fn left(face: &Face) -> f64 {
    face.points[2][0] - TURN
}

/// The place of a uv point in the picture.
fn place([u, v]: [f64; 2], left: f64) -> [f64; 2] {
    [MARGIN + (u - left) * UNIT, MARGIN + (HEIGHT - v) * UNIT]
}

/// 1, 0 or -1.
fn sign(x: f64) -> f64 {
    if x.abs() > 1.0e-6 {
        x.signum()
    } else {
        0.0
    }
}

fn pixels([x, y]: [f64; 2]) -> String {
    format!("{},{}", x.round(), y.round())
}

/// The direction of a line in the picture, and how far to its left things lie
/// that lie beside it.
fn direction([[x0, y0], [x1, y1]]: Line) -> ([f64; 2], [f64; 2]) {
    let (dx, dy) = (sign(x1 - x0), sign(y1 - y0));
    ([dx, dy], [dy * GAP, -dx * GAP])
}

/// The arrow of a use, on the left of its edge, inside of the contour.
fn arrow(line: Line, colour: &str) -> String {
    let [[x0, y0], [x1, y1]] = line;
    let ([dx, dy], [side_x, side_y]) = direction(line);
    let start = [x0 + dx * GAP + side_x, y0 + dy * GAP + side_y];
    let end = [x1 - dx * GAP + side_x, y1 - dy * GAP + side_y];
    let (back_x, back_y) = (end[0] - 12.0 * dx, end[1] - 12.0 * dy);
    let left = [back_x - 5.0 * dy, back_y + 5.0 * dx];
    let right = [back_x + 5.0 * dy, back_y - 5.0 * dx];
    let [start, end, left, right] = [start, end, left, right].map(pixels);
    format!(
        r#"<polyline points="{start} {end}" stroke-width="2" stroke="{colour}"/>
<polygon points="{end} {left} {right}" fill="{colour}"/>
"#
    )
}

/// A text beside the arrow, at the middle of a rim and at this part of a seam.
fn label(line: Line, part: f64, colour: &str, text: &str) -> String {
    let [[x0, y0], [x1, y1]] = line;
    let (_, [side_x, side_y]) = direction(line);
    let x = ((x0 + x1) / 2.0 + 2.7 * side_x).round();
    let y = (y0 + (y1 - y0) * part + 2.7 * side_y).round();
    format!("<text x=\"{x}\" y=\"{y}\" fill=\"{colour}\">{text}</text>\n")
}

/// At what part of a seam its text stands: at the middle, but before it in a
/// contour that is narrow, where the texts of its two seams would meet.
fn label_part(contour: &[(Use, Line)]) -> f64 {
    let is_short = |(_, [from, to]): &(Use, Line)| (to[0] - from[0]).abs() < 1.0;
    if contour.iter().all(is_short) {
        0.25
    } else {
        0.5
    }
}

/// The picture of a face with its contours: each use with its number there.
pub fn drawn(face: &Face) -> Result<String, Refusal> {
    let mut picture = String::from(BEGINNING);
    for (contour, colour) in contours(face)?.iter().zip(COLOURS.iter().cycle()) {
        let part = label_part(contour);
        for (number, (used, line)) in (1..).zip(contour) {
            let line = line.map(|point| place(point, left(face)));
            picture += &arrow(line, colour);
            picture += &label(line, part, colour, &format!("{number}: {used}"));
        }
    }
    Ok(picture + "</svg>\n")
}
