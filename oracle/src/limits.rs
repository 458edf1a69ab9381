//! Named inputs at the corners and bounds of the specification, each with its
//! answer written out by hand.

pub mod arrays;
mod eighths;
pub mod ways;

use crate::calls::split_closed_edges::SplitClosed;
use crate::calls::tables::{Spoil, OF_PREPARATIONS};
use crate::compare::{Case, Expected};
use crate::random::Random;
use crate::records::{Edge, Preparation, Shell, Vertex};
use crate::shell::{needed, Lent};
use crate::shell::{EDGE_FLOATS, EDGE_NUMBERS, PREPARATION, VERTEX_FLOATS, VERTEX_NUMBERS};
use ways::{ample, cells, done, edge, held, k1_cells, refused, sample, shell, span};
use ways::{edge_float, edge_number, vertex_float, vertex_number};
use ways::{spoiled, unharmed, words};

/// All cases.
pub fn cases() -> Vec<Case<SplitClosed>> {
    of_shells().into_iter().chain(eighths::cases()).collect()
}

/// Those over shells: all but the cases of k.
pub fn of_shells() -> Vec<Case<SplitClosed>> {
    [
        worked(),
        vec![
            k1_cell_by_cell("K1 cell by cell", 0),
            k1_cell_by_cell("a single bevel cell by cell", 1),
            k1_cell_by_cell("a double bevel cell by cell", 2),
        ],
        vec![prepared_rings()],
        middles(),
        full_tables(),
        use_counts(),
        arrays::cases(),
        kinds(),
        preparations(),
        numbers(),
        floats(),
        parameters(),
        counts(),
        lengths(),
        room(),
        lowest(),
    ]
    .into_iter()
    .flatten()
    .collect()
}

/// K1's one vertex.
const ORIGIN: Vertex = Vertex::Given(0.0, 0.0, 0.0);

/// K1's shell with other wires, before and after.
fn ring(before: &[&str], after: &[&str]) -> (Shell, Shell) {
    let whole = span(7, 0.0, 8.0);
    let halves = [edge(0, 1, span(7, 0.0, 4.0)), edge(1, 0, span(7, 4.0, 8.0))];
    let middle = Vertex::Pending(whole, 4.0);
    (
        shell(&[ORIGIN], &[edge(0, 0, whole)], before),
        shell(&[ORIGIN, middle], &halves, after),
    )
}

/// The worked examples.
pub fn worked() -> Vec<Case<SplitClosed>> {
    let ring_case = |name, before: &[&str], after: &[&str]| {
        let (before, after) = ring(before, after);
        done(name, &before, &after)
    };
    let no_edges = shell(&[ORIGIN], &[], &["", ""]);
    let nothing = Lent::poisoned([0; 6], &mut Random::new(0, 0, 0));
    let nothing = SplitClosed::in_the_middle(nothing);
    vec![
        ring_case("K1", &["0+"], &["0+ 1+"]),
        ring_case("K2", &["0-"], &["1- 0-"]),
        done("K3", &no_edges, &no_edges),
        Case {
            name: "K3 with nothing lent",
            input: nothing.clone(),
            expected: Expected {
                answer: 0,
                out: words([0, 0, 0]),
                after: nothing,
            },
        },
        ring_case("both directions", &["0+ 0-"], &["0+ 1+ 1- 0-"]),
        ring_case("in no wire", &["", ""], &["", ""]),
        two_rings(),
        sample("one of each kind"),
    ]
}

/// Two closed edges and an open one between their vertices.
fn two_rings() -> Case<SplitClosed> {
    let (first, second) = (span(7, 0.0, 8.0), span(8, 1.0, 2.0));
    let bridge = edge(0, 1, span(9, 0.0, 1.0));
    let before = shell(
        &[ORIGIN, ORIGIN],
        &[edge(0, 0, first), bridge, edge(1, 1, second)],
        &["2- 1-", "0+ 1+ 2+"],
    );
    let after = shell(
        &[
            ORIGIN,
            ORIGIN,
            Vertex::Pending(first, 4.0),
            Vertex::Pending(second, 1.5),
        ],
        &[
            edge(0, 2, span(7, 0.0, 4.0)),
            bridge,
            edge(1, 3, span(8, 1.0, 1.5)),
            edge(2, 0, span(7, 4.0, 8.0)),
            edge(3, 1, span(8, 1.5, 2.0)),
        ],
        &["4- 2- 1-", "0+ 3+ 1+ 2+ 4+"],
    );
    done("two closed edges", &before, &after)
}

/// A closed edge of each bevel beside an open one of each: both pieces have
/// their edge's preparation, and the open edges keep theirs.
fn prepared_rings() -> Case<SplitClosed> {
    use Preparation::{DoubleBevel, SingleBevel};
    let (first, second) = (span(7, 0.0, 8.0), span(8, 1.0, 2.0));
    let open = [
        edge(0, 1, span(9, 0.0, 1.0)).prepared(SingleBevel),
        edge(1, 0, span(10, 0.0, 1.0)).prepared(DoubleBevel),
    ];
    let double = |front: u32, back: u32, t0: f64, t1: f64| {
        edge(front, back, span(7, t0, t1)).prepared(DoubleBevel)
    };
    let single = |front: u32, back: u32, t0: f64, t1: f64| {
        edge(front, back, span(8, t0, t1)).prepared(SingleBevel)
    };
    let before = shell(
        &[ORIGIN, ORIGIN],
        &[
            open[0],
            double(0, 0, 0.0, 8.0),
            open[1],
            single(1, 1, 1.0, 2.0),
        ],
        &["1+ 0+ 3+ 2+", "3- 1-"],
    );
    let middles = [Vertex::Pending(first, 4.0), Vertex::Pending(second, 1.5)];
    let after = shell(
        &[ORIGIN, ORIGIN, middles[0], middles[1]],
        &[
            open[0],
            double(0, 2, 0.0, 4.0),
            open[1],
            single(1, 3, 1.0, 1.5),
            double(2, 0, 4.0, 8.0),
            single(3, 1, 1.5, 2.0),
        ],
        &["1+ 4+ 0+ 3+ 5+ 2+", "5- 3- 4- 1-"],
    );
    done("closed and open edges of both bevels", &before, &after)
}

/// K1 with each cell written out, in buffers of just the result's length, and
/// with an edge of a preparation.
fn k1_cell_by_cell(name: &'static str, preparation: u32) -> Case<SplitClosed> {
    let k = 77.0;
    let after = cells(
        (
            [0, 77, 77, 1, 0, 7],
            [0.0, 0.0, 0.0, k, k, k, k, k, k, k, k, 0.0, 8.0, 4.0],
        ),
        (
            [0, 1, 0, 7, preparation, 1, 0, 0, 7, preparation],
            [k, k, k, k, 0.0, 4.0, k, k, k, k, 4.0, 8.0],
        ),
        ([0, 2], 2),
    );
    Case {
        name,
        input: SplitClosed::in_the_middle(k1_cells(preparation)),
        expected: Expected {
            answer: 0,
            out: words([2, 2, 2]),
            after: SplitClosed::in_the_middle(after),
        },
    }
}

/// Where the middle of a range lies.
fn middles() -> Vec<Case<SplitClosed>> {
    let cut = |name, t0: f64, middle: f64, t1: f64| {
        let whole = span(7, t0, t1);
        let before = shell(&[ORIGIN], &[edge(0, 0, whole)], &["0+"]);
        let halves = [
            edge(0, 1, span(7, t0, middle)),
            edge(1, 0, span(7, middle, t1)),
        ];
        let new = Vertex::Pending(whole, middle);
        let after = shell(&[ORIGIN, new], &halves, &["0+ 1+"]);
        done(name, &before, &after)
    };
    let tiny = 5.0e-324;
    vec![
        cut("negative zero to negative zero", -0.0, -0.0, -0.0),
        cut("negative zero to zero", -0.0, 0.0, 0.0),
        cut("zero to negative zero", 0.0, 0.0, -0.0),
        cut("zero to the least float", 0.0, 0.0, tiny),
        cut("the least float to itself", tiny, tiny, tiny),
        cut("the least float to three of it", tiny, 1.0e-323, 1.5e-323),
        cut("greatest size on both sides", -1.0e15, 0.0, 1.0e15),
        cut("greatest size alone", 1.0e15, 1.0e15, 1.0e15),
    ]
}

/// Tables that are filled to their bounds.
fn full_tables() -> Vec<Case<SplitClosed>> {
    let open = edge(0, 1, span(3, 0.0, 2.0));
    let closed = edge(1, 1, span(3, 0.0, 2.0));
    let wide = |vertices: usize, edges: &[Edge]| shell(&vec![ORIGIN; vertices], edges, &["0+"]);
    let many = wide(4096, &[open]);
    let mut long = wide(4, &[open; 4096]);
    let long_open = long.clone();
    long.edges[4095] = closed;
    let full = |shell: &Shell| held(shell, ample([4200, 4200, 4], 1));
    vec![
        refused(
            "4096 vertices, one closed edge",
            6,
            full(&wide(4096, &[closed])),
        ),
        done("4096 vertices, no closed edge", &many, &many),
        refused("4096 edges, the last one closed", 6, full(&long)),
        done("4096 edges, none closed", &long_open, &long_open),
        refused("4097 vertices", 1, full(&wide(4097, &[open]))),
        refused("4097 edges", 1, full(&wide(4, &[open; 4097]))),
    ]
}

/// Uses and wires at their bounds.
fn use_counts() -> Vec<Case<SplitClosed>> {
    let ring_of = |uses: usize| ring(&[&"0+ ".repeat(uses)], &[&"0+ 1+ ".repeat(uses)]);
    let (fits, fitting) = ring_of(512);
    let plenty = [100, 100, 100, 100, 4000, 100];
    let open = edge(0, 1, span(3, 0.0, 2.0));
    let line = |wires: &[&str]| shell(&[ORIGIN, ORIGIN], &[open], wires);
    let most = line(&[&"0- ".repeat(1024)]);
    let more = line(&[&"0- ".repeat(1025)]);
    vec![
        done("512 uses of one closed edge", &fits, &fitting),
        refused(
            "513 uses of one closed edge",
            6,
            held(&ring_of(513).0, plenty),
        ),
        done("1024 uses of an open edge", &most, &most),
        refused("1025 uses of an open edge", 1, held(&more, plenty)),
        done("64 wires", &line(&["0+"; 64]), &line(&["0+"; 64])),
        refused("65 wires", 1, held(&line(&["0+"; 65]), plenty)),
        refused("65 empty wires", 1, held(&line(&[""; 65]), plenty)),
    ]
}

/// Kind cells that hold no known kind.
fn kinds() -> Vec<Case<SplitClosed>> {
    vec![
        spoiled("kind 2 in an edge row", 1, edge_number(0, 2, 2)),
        spoiled("kind 2 in an unused edge row", 1, edge_number(2, 2, 2)),
        spoiled("kind 2 in a vertex row", 1, vertex_number(0, 0, 2)),
        spoiled(
            "largest kind in a vertex row",
            1,
            vertex_number(2, 0, u32::MAX),
        ),
        spoiled("kind 2 in a pending curve", 1, vertex_number(1, 1, 2)),
        unharmed("kind 2 beside a given vertex", vertex_number(0, 1, 2)),
        unharmed("kind 2 past the edges", |lent| {
            // Row 3 becomes the new edge, so its kind is written over; the
            // cells past row 3 are kept.
            let place = 4 * EDGE_NUMBERS + 2;
            lent.tables.edge_numbers[place] = 2;
        }),
    ]
}

/// Preparation cells that hold no known preparation, and cells that are no
/// input.
fn preparations() -> Vec<Case<SplitClosed>> {
    let refused =
        |(name, number, change): Spoil| spoiled(name, number, move |lent| change(&mut lent.tables));
    let mut cases: Vec<Case<SplitClosed>> = OF_PREPARATIONS.into_iter().map(refused).collect();
    cases.push(spoiled(
        "preparation 3 of an open edge",
        1,
        edge_number(0, PREPARATION, 3),
    ));
    // Row 3 becomes the new edge; the cells behind it are kept.
    cases.push(unharmed(
        "preparation 3 behind the edges",
        edge_number(4, PREPARATION, 3),
    ));
    cases
}

/// Vertex and edge numbers at and past the counts.
fn numbers() -> Vec<Case<SplitClosed>> {
    vec![
        spoiled("front at the vertex count", 2, edge_number(0, 0, 3)),
        spoiled("back at the vertex count", 2, edge_number(0, 1, 3)),
        spoiled("unused edge, largest back", 2, edge_number(2, 1, u32::MAX)),
        spoiled("both ends of an edge past the count", 2, |lent| {
            edge_number(1, 0, 4)(lent);
            edge_number(1, 1, 4)(lent);
        }),
        spoiled("no vertices", 2, |lent| lent.tables.vertices = 0),
        spoiled("use at the edge count", 3, |lent| lent.uses[0] = 6),
        spoiled("largest use", 3, |lent| lent.uses[3] = u32::MAX),
        spoiled("no edges", 3, |lent| lent.tables.edges = 0),
        unharmed("largest use past the wires", |lent| {
            lent.uses[7] = u32::MAX;
        }),
    ]
}

/// Floats that are not numbers or too large.
fn floats() -> Vec<Case<SplitClosed>> {
    let nan = f64::NAN;
    let above = f64::next_up(1.0e15);
    vec![
        spoiled("NaN for t0 of a span", 4, edge_float(0, 4, nan)),
        spoiled("NaN for t1 of an unused span", 4, edge_float(2, 5, nan)),
        spoiled("NaN for u of a seam", 4, edge_float(1, 0, nan)),
        spoiled("NaN for the last v of a seam", 4, edge_float(1, 3, -nan)),
        spoiled("NaN for z of a given vertex", 4, vertex_float(0, 2, nan)),
        spoiled("NaN for a pending parameter", 4, vertex_float(1, 6, nan)),
        spoiled("NaN for v of a pending seam", 4, vertex_float(2, 1, nan)),
        spoiled("infinity", 4, edge_float(0, 5, f64::INFINITY)),
        spoiled("negative infinity", 4, edge_float(0, 4, -f64::INFINITY)),
        spoiled("just above the greatest size", 4, vertex_float(0, 0, above)),
        spoiled("just below the least size", 4, edge_float(0, 4, -above)),
        unharmed("NaN for u beside a span", edge_float(0, 0, nan)),
        unharmed("NaN behind a given vertex", vertex_float(0, 3, nan)),
        unharmed("NaN for u beside a pending span", vertex_float(1, 0, nan)),
        unharmed("greatest size for x", vertex_float(0, 0, -1.0e15)),
        unharmed("least float for x", vertex_float(0, 0, 5.0e-324)),
    ]
}

/// Parameters out of order.
fn parameters() -> Vec<Case<SplitClosed>> {
    vec![
        spoiled("unused edge, t0 above t1", 5, edge_float(2, 4, 3.5)),
        spoiled("used edge, t0 above t1", 5, edge_float(0, 5, -0.5)),
        spoiled("pending seam, t0 above t1", 5, vertex_float(2, 5, -1.0)),
        spoiled("pending below t0", 5, vertex_float(1, 6, -5.0e-324)),
        spoiled("pending above t1", 5, vertex_float(2, 6, 1.0f64.next_up())),
        unharmed("pending at t0, as negative zero", vertex_float(1, 6, -0.0)),
        unharmed("pending at t1", vertex_float(1, 6, 2.0)),
        unharmed("unused edge, t0 equal to t1", edge_float(2, 4, 3.0)),
    ]
}

/// Counts above what was lent.
fn counts() -> Vec<Case<SplitClosed>> {
    let most = usize::MAX;
    vec![
        spoiled("largest vertex count", 1, move |lent| {
            lent.tables.vertices = most
        }),
        spoiled("largest edge count", 1, move |lent| {
            lent.tables.edges = most
        }),
        spoiled("largest wire count", 1, move |lent| lent.wires = most),
        spoiled("all counts the largest", 1, move |lent| {
            (lent.tables.vertices, lent.tables.edges, lent.wires) = (most, most, most);
        }),
        spoiled("edge count whose rows wrap", 1, |lent| {
            lent.tables.edges = 1 << 62
        }),
        spoiled("one vertex row too few", 1, |lent| {
            lent.tables.vertex_numbers.truncate(3 * VERTEX_NUMBERS - 1);
        }),
        spoiled("one vertex float too few", 1, |lent| {
            lent.tables.vertex_floats.truncate(3 * VERTEX_FLOATS - 1);
        }),
        spoiled("one edge number too few", 1, |lent| {
            lent.tables.edge_numbers.truncate(3 * EDGE_NUMBERS - 1);
        }),
        spoiled("one edge float too few", 1, |lent| {
            lent.tables.edge_floats.truncate(3 * EDGE_FLOATS - 1);
        }),
        spoiled("one use too few", 1, |lent| lent.uses.truncate(3)),
        spoiled("one length too few", 1, |lent| lent.lengths.truncate(2)),
    ]
}

/// Wire lengths whose sum is too large.
fn lengths() -> Vec<Case<SplitClosed>> {
    let long = |name, wires: usize, length: u32| {
        spoiled(name, 1, move |lent| {
            lent.uses.resize(1024, 0);
            lent.lengths = vec![length; wires];
            lent.wires = wires;
        })
    };
    vec![
        long("64 wire lengths of the largest number", 64, u32::MAX),
        long("wire lengths that wrap to nothing", 2, 1 << 31),
        long("wire lengths that wrap to 64", 64, (1 << 26) + 1),
    ]
}

/// Buffers that hold the input and are one cell too short for the result.
fn room() -> Vec<Case<SplitClosed>> {
    let names = [
        "no room for a vertex number",
        "no room for a vertex float",
        "no room for an edge number",
        "no room for an edge float",
        "no room for a use",
    ];
    let short = |(buffer, name): (usize, &'static str)| {
        let mut lent = sample(name).input.lent;
        let mut sizes = needed([4, 4, 6], 3);
        sizes[buffer] -= 1;
        lent.shorten(sizes);
        refused(name, 6, lent)
    };
    let mut exact = sample("just enough room");
    exact.input.lent.shorten(needed([4, 4, 6], 3));
    exact.expected.after.lent.shorten(needed([4, 4, 6], 3));
    let mut cases: Vec<Case<SplitClosed>> = names.into_iter().enumerate().map(short).collect();
    cases.push(exact);
    cases
}

/// Two causes at once: the lower number wins.
fn lowest() -> Vec<Case<SplitClosed>> {
    let both = |name, number, first: &dyn Fn(&mut Lent), second: &dyn Fn(&mut Lent)| {
        let mut lent = sample("").input.lent;
        first(&mut lent);
        second(&mut lent);
        refused(name, number, lent)
    };
    let kind = vertex_number(2, 0, 2);
    let front = edge_number(2, 0, 9);
    let used = |lent: &mut Lent| lent.uses[3] = 6;
    let nan = vertex_float(2, 6, f64::NAN);
    let order = edge_float(0, 4, 1.5);
    let short = |lent: &mut Lent| lent.uses.truncate(5);
    vec![
        both("1 before 2", 1, &front, &kind),
        both("1 before 5", 1, &order, &kind),
        both("2 before 3", 2, &used, &front),
        both("2 before 4", 2, &nan, &front),
        both("3 before 4", 3, &nan, &used),
        both("3 before 5", 3, &order, &used),
        both("4 before 5", 4, &order, &nan),
        both("2 before 6", 2, &short, &front),
        both("3 before 6", 3, &short, &used),
        both("4 before 6", 4, &short, &nan),
        both("5 before 6", 5, &short, &order),
    ]
}
