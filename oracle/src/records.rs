//! The records of a shell: curves, vertices, edges, wires of uses, and the
//! short notation in which wires are written down.

/// A span of a numbered curve, or a seam drawn on a numbered surface.
#[derive(Clone, Copy, Debug, PartialEq)]
pub enum Curve {
    Span {
        number: u32,
        t0: f64,
        t1: f64,
    },
    Seam {
        surface: u32,
        p: [f64; 2],
        q: [f64; 2],
        t0: f64,
        t1: f64,
    },
}

impl Curve {
    /// From where to where the parameter runs.
    pub fn range(&self) -> (f64, f64) {
        match *self {
            Curve::Span { t0, t1, .. } | Curve::Seam { t0, t1, .. } => (t0, t1),
        }
    }

    /// The same curve over another range.
    pub fn over(mut self, from: f64, to: f64) -> Curve {
        match &mut self {
            Curve::Span { t0, t1, .. } | Curve::Seam { t0, t1, .. } => (*t0, *t1) = (from, to),
        }
        self
    }
}

/// A vertex with coordinates, or one that the host has yet to work out.
#[derive(Clone, Copy, Debug, PartialEq)]
pub enum Vertex {
    Given(f64, f64, f64),
    Pending(Curve, f64),
}

/// How an edge is prepared for its weld.
#[derive(Clone, Copy, Debug, PartialEq, Eq)]
pub enum Preparation {
    Square = 0,
    SingleBevel = 1,
    DoubleBevel = 2,
}

impl Preparation {
    /// All of them, in the order of their numbers.
    pub const ALL: [Preparation; 3] = [
        Preparation::Square,
        Preparation::SingleBevel,
        Preparation::DoubleBevel,
    ];

    /// One after the other, over and over.
    pub fn in_turn(turn: usize) -> Preparation {
        Self::ALL[turn % Self::ALL.len()]
    }
}

/// Two vertex numbers, the curve between them, and the preparation.
#[derive(Clone, Copy, Debug, PartialEq)]
pub struct Edge {
    pub front: u32,
    pub back: u32,
    pub curve: Curve,
    pub preparation: Preparation,
}

impl Edge {
    /// The same edge with another preparation.
    pub fn prepared(self, preparation: Preparation) -> Edge {
        Edge {
            preparation,
            ..self
        }
    }
}

/// The whole input of a call, put together. A use is twice the edge number,
/// plus 1 when reversed.
#[derive(Clone, Debug, Default, PartialEq)]
pub struct Shell {
    pub vertices: Vec<Vertex>,
    pub edges: Vec<Edge>,
    pub wires: Vec<Vec<u32>>,
}

impl Shell {
    /// Vertices, edges, and the uses of all wires together.
    pub fn counts(&self) -> [usize; 3] {
        let uses = self.wires.iter().map(Vec::len).sum();
        [self.vertices.len(), self.edges.len(), uses]
    }
}

/// A wire from its notation, for instance `0+ 3-`.
pub fn wire(notation: &str) -> Vec<u32> {
    let one = |word: &str| {
        let (number, sign) = word.split_at(word.len() - 1);
        let edge: u32 = number.parse().expect("an edge number and a sign");
        2 * edge + u32::from(sign == "-")
    };
    notation.split_whitespace().map(one).collect()
}

/// Wires from their notations.
pub fn wires(notations: &[&str]) -> Vec<Vec<u32>> {
    notations.iter().map(|notation| wire(notation)).collect()
}

/// The notation of a wire.
pub fn notation(uses: &[u32]) -> String {
    let sign = |number: u32| if number % 2 == 1 { '-' } else { '+' };
    let words: Vec<String> = uses
        .iter()
        .map(|&number| format!("{}{}", number / 2, sign(number)))
        .collect();
    words.join(" ")
}
