//! Random splits: closed walks over edges that are made for them, in order or
//! shuffled, with lists of their vertices; the same with a use too many or too
//! few; any uses; damaged ones; and noise.

use super::{SplitWires, WireCells};
use crate::inputs::{any_count, damage_tables, edge, float, parameters};
use crate::inputs::{noise as noisy, spoil_float, spoil_number, spoil_one_of};
use crate::model::{MOST_EDGES, MOST_USES, MOST_VERTICES};
use crate::random::Random;
use crate::records::Edge;
use crate::shell::{float_poison, numbers_poison, EDGE_FLOATS, EDGE_NUMBERS};
use std::collections::BTreeMap;

/// Edges, and uses of them that make closed walks.
struct Web {
    vertices: usize,
    edges: Vec<Edge>,
    uses: Vec<u32>,
    /// The first edge between two vertices, the lower one named first.
    between: BTreeMap<(u32, u32), u32>,
}

impl Web {
    /// Closed walks of about so many uses. Each vertex is visited once, up to
    /// twice or by chance; some walks go back the way they came.
    fn made(random: &mut Random, uses: usize) -> Web {
        let mut web = Web {
            vertices: 0,
            edges: Vec::new(),
            uses: Vec::new(),
            between: BTreeMap::new(),
        };
        let visits = web.visits(random, uses);
        let again = random.pick(&[0, 1, 3, 4]);
        let longest = random.pick(&[2, 4, 9, 300]);
        let mut rest = &visits[..];
        while !rest.is_empty() {
            let (walk, behind) = rest.split_at((1 + random.below(longest)).min(rest.len()));
            rest = behind;
            if random.once_in(4) && walk.len() > 2 && 2 * walk.len() <= rest.len() + 3 {
                let back = walk[1..walk.len() - 1].iter().rev();
                let whole: Vec<u32> = walk.iter().chain(back).copied().collect();
                rest = &rest[walk.len() - 2..];
                web.close(random, &whole, 4);
            } else {
                web.close(random, walk, again);
            }
        }
        web
    }

    /// The vertices of all walks, one after the other.
    fn visits(&mut self, random: &mut Random, uses: usize) -> Vec<u32> {
        let kind = random.below(5);
        let fewest = match kind {
            0 => uses,
            1..=3 => uses.div_ceil(2),
            _ => 1 + uses / 4,
        };
        self.vertices = (fewest + random.pick(&[0, 0, 1, 3])).clamp(1, MOST_VERTICES);
        let mut visits: Vec<u32> = match kind {
            0..=3 => (0..uses)
                .map(|visit| (visit % self.vertices) as u32)
                .collect(),
            _ => (0..uses)
                .map(|_| random.below(self.vertices) as u32)
                .collect(),
        };
        if !random.once_in(4) {
            shuffle(random, &mut visits);
        }
        visits
    }

    /// Adds a closed walk over these vertices. In so many quarters of all
    /// cases a use is of an edge that is already there.
    fn close(&mut self, random: &mut Random, walk: &[u32], again: usize) {
        for (place, &from) in walk.iter().enumerate() {
            let to = walk[(place + 1) % walk.len()];
            let ends = (from.min(to), from.max(to));
            let known = self.between.get(&ends).copied();
            let number = match known.filter(|_| random.below(4) < again) {
                Some(number) => number,
                None => self.add(random, from, to),
            };
            let forward = self.edges[number as usize].front == from;
            self.uses.push(2 * number + u32::from(!forward));
        }
    }

    /// Adds an edge between two vertices, in either direction.
    fn add(&mut self, random: &mut Random, from: u32, to: u32) -> u32 {
        let number = self.edges.len() as u32;
        let mut new = edge(random, self.vertices, 0);
        (new.front, new.back) = random.pick(&[(from, to), (to, from)]);
        self.edges.push(new);
        self.between
            .entry((from.min(to), from.max(to)))
            .or_insert(number);
        number
    }

    /// How many uses begin at each vertex.
    fn degrees(&self) -> Vec<usize> {
        let mut degrees = vec![0; self.vertices];
        for &number in &self.uses {
            let edge = &self.edges[number as usize / 2];
            degrees[[edge.front, edge.back][number as usize % 2] as usize] += 1;
        }
        degrees
    }

    /// Vertices for the divisor: mostly an even count of different ones that
    /// have at most one use.
    fn list(&self, random: &mut Random, little: bool) -> Vec<u32> {
        let degrees = self.degrees();
        let most = if random.once_in(4) { 9 } else { 1 };
        let light = |vertex: &u32| degrees[*vertex as usize] <= most;
        let mut list: Vec<u32> = (0..self.vertices as u32).filter(light).collect();
        shuffle(random, &mut list);
        let count = match random.below(16) {
            0..=3 => 0,
            4..=9 => 2,
            10..=13 => 2 * random.below(4),
            14 if !little => list.len(),
            _ => random.below(6),
        };
        list.truncate(count);
        if list.len() % 2 == 1 && !random.once_in(8) {
            list.pop();
        }
        if list.len() > 1 && random.once_in(24) {
            let (from, to) = (random.below(list.len()), random.below(list.len()));
            list[to] = list[from];
        }
        list
    }

    /// The order of the uses, and now and then one use too many, too few, or
    /// in the other direction, or any uses at all.
    fn disturb(&mut self, random: &mut Random) {
        match random.below(4) {
            0 => shuffle(random, &mut self.uses),
            1 => self.uses.reverse(),
            _ => {}
        }
        if self.uses.is_empty() || !random.once_in(4) {
            return;
        }
        let (place, edges) = (random.below(self.uses.len()), self.edges.len());
        match random.below(8) {
            0 | 1 => drop(self.uses.remove(place)),
            2 | 3 => self.uses[place] ^= 1,
            4 | 5 => self.uses.push(self.uses[place]),
            6 => self.uses[place] = random.below(2 * edges) as u32,
            _ => {
                let any = |number: &mut u32| *number = random.below(2 * edges) as u32;
                self.uses.iter_mut().for_each(any);
            }
        }
    }

    /// The uses of the face's wires, which decide the marks.
    fn face(&self, random: &mut Random) -> Vec<u32> {
        let edges = self.edges.len() as u32;
        let mut uses = match random.below(8) {
            0..=3 => self.uses.clone(),
            4 => Vec::new(),
            5 => [&self.uses[..], &self.uses[..self.uses.len() / 2]].concat(),
            6 if edges > 0 => {
                let any = |_| random.below(2 * edges as usize) as u32;
                (0..self.uses.len()).map(any).collect()
            }
            _ => {
                let chosen: Vec<u32> = (0..edges).filter(|_| random.once_in(2)).collect();
                let both = |&edge: &u32| [2 * edge, 2 * edge + random.below(2) as u32];
                chosen.iter().flat_map(both).collect()
            }
        };
        uses.truncate(MOST_USES - self.uses.len().min(MOST_USES));
        uses
    }

    /// Adds unused edges and vertices, up to the bounds or one past them.
    fn fill(&mut self, random: &mut Random, new: usize) {
        let past = random.pick(&[0, 0, 0, 1]);
        let edges = MOST_EDGES + past - random.pick(&[new, new, 0]);
        self.vertices = random.pick(&[self.vertices, MOST_VERTICES]);
        if let Some(&last) = self.edges.last() {
            self.edges.resize(edges.max(self.edges.len()), last);
        }
    }
}

/// Puts items into any order.
fn shuffle<T>(random: &mut Random, items: &mut [T]) {
    for end in (1..items.len()).rev() {
        items.swap(end, random.below(end + 1));
    }
}

/// Cuts uses into at most so many wires; some of these may be empty.
fn cut(random: &mut Random, uses: &[u32], most: usize) -> Vec<Vec<u32>> {
    let count = match random.below(8) {
        0 => most,
        1..=4 => 1.min(most),
        _ => random.below(5).min(most),
    };
    let mut wires = vec![Vec::new(); count.max(usize::from(!uses.is_empty()))];
    let mut ends: Vec<usize> = (1..wires.len())
        .map(|_| random.below(uses.len() + 1))
        .collect();
    ends.sort_unstable();
    ends.push(uses.len());
    let mut from = 0;
    for (wire, to) in wires.iter_mut().zip(ends) {
        *wire = uses[from..to].to_vec();
        from = to;
    }
    wires
}

/// How many uses shall be rebuilt: 512 can be the face's as well.
fn size(random: &mut Random, little: bool) -> usize {
    match random.below(48) {
        _ if little => random.below(9),
        0 => random.pick(&[510, 511, 512, 513]),
        1 => random.pick(&[1020, 1022, 1023, 1024, 1025]),
        2 => random.below(1025),
        3..=6 => random.below(128),
        _ => random.below(25),
    }
}

/// A random split, of few uses where it shall be little.
pub fn made(random: &mut Random, little: bool) -> SplitWires {
    let uses = size(random, little);
    let mut web = Web::made(random, uses);
    let list = web.list(random, little);
    web.disturb(random);
    let face = web.face(random);
    if !little && random.once_in(48) {
        web.fill(random, list.len() / 2);
    }
    let past = usize::from(random.once_in(48));
    let rebuilt = cut(random, &web.uses, 32);
    let face = cut(random, &face, 64 - rebuilt.len() + past);
    let mut point = |&vertex: &u32| (vertex, [float(random), float(random)]);
    let places: Vec<_> = list.iter().map(&mut point).collect();
    let edges = (web.vertices, &web.edges[..]);
    let mut input = SplitWires::over(edges, [&face, &rebuilt], &places, 0);
    input.surface = random.word() as u32 >> random.below(32);
    lend(random, &mut input);
    input
}

/// Adds cells that are no input, and shortens a buffer now and then.
fn lend(random: &mut Random, input: &mut SplitWires) {
    let spare = |random: &mut Random| {
        let cells = random.pick(&[0, 0, 1, 2, 7]);
        numbers_poison(cells, random)
    };
    let tables = &mut input.tables;
    let rows = [
        &mut tables.edge_numbers,
        &mut input.face.uses,
        &mut input.face.lengths,
        &mut input.rebuilt.uses,
        &mut input.rebuilt.lengths,
        &mut input.divisor,
        &mut input.uses,
        &mut input.lengths,
    ];
    rows.into_iter().for_each(|row| row.extend(spare(random)));
    for row in [&mut tables.edge_floats, &mut input.points] {
        let cells = random.pick(&[0, 0, 1, 5]);
        row.extend((0..cells).map(|_| float_poison(random)));
    }
    if random.once_in(12) {
        shorten(random, input);
    }
}

/// Shortens one of the buffers for the result by some cells.
fn shorten(random: &mut Random, input: &mut SplitWires) {
    let less = |random: &mut Random, size: usize| size.saturating_sub(1 + random.below(9));
    let tables = &mut input.tables;
    match random.below(4) {
        0 => input.uses.truncate(less(random, input.uses.len())),
        1 => input.lengths.truncate(less(random, input.lengths.len())),
        2 => {
            let least = tables.edges.saturating_mul(EDGE_NUMBERS);
            let size = less(random, tables.edge_numbers.len());
            tables.edge_numbers.truncate(size.max(least));
        }
        _ => {
            let least = tables.edges.saturating_mul(EDGE_FLOATS);
            let size = less(random, tables.edge_floats.len());
            tables.edge_floats.truncate(size.max(least));
        }
    }
}

/// Spoils one thing.
pub fn damage(input: &mut SplitWires, random: &mut Random) {
    match random.below(16) {
        thing @ (0 | 1 | 3) => damage_tables(random, &mut input.tables, thing),
        2 => parameters(random, &mut input.tables),
        4 => spoil_number(random, &mut input.face.uses),
        5 => spoil_number(random, &mut input.face.lengths),
        6 => spoil_number(random, &mut input.rebuilt.uses),
        7 => spoil_number(random, &mut input.rebuilt.lengths),
        8 => spoil_number(random, &mut input.divisor),
        9 => spoil_float(random, &mut input.points),
        10 => repeat(random, input),
        11 => input.divisor_count ^= 1,
        12 | 13 => shorten(random, input),
        14 => shorten_input(random, input),
        _ => {
            let counts = [
                &mut input.tables.vertices,
                &mut input.tables.edges,
                &mut input.face.wires,
                &mut input.rebuilt.wires,
                &mut input.divisor_count,
            ];
            spoil_one_of(random, counts);
        }
    }
}

/// Puts a vertex of the list in a second place.
fn repeat(random: &mut Random, input: &mut SplitWires) {
    let count = input.divisor_count.min(input.divisor.len());
    if count > 1 {
        let (from, to) = (random.below(count), random.below(count));
        input.divisor[to] = input.divisor[from];
    }
}

/// Shortens one of the slices that are read.
fn shorten_input(random: &mut Random, input: &mut SplitWires) {
    let short = |random: &mut Random, size: usize| size.saturating_sub(1 + random.below(3));
    let rows = [
        &mut input.face.uses,
        &mut input.face.lengths,
        &mut input.rebuilt.uses,
        &mut input.rebuilt.lengths,
        &mut input.divisor,
    ];
    match rows.into_iter().nth(random.below(6)) {
        Some(row) => row.truncate(short(random, row.len())),
        None => input.points.truncate(short(random, input.points.len())),
    }
}

/// A few numbers, mostly below a bound where they shall be tame.
fn cells(random: &mut Random, tame: bool, most: usize) -> Vec<u32> {
    let cell = |random: &mut Random| match tame && !random.once_in(48) {
        true => random.below(most) as u32,
        false => random.word() as u32,
    };
    (0..random.below(14)).map(|_| cell(random)).collect()
}

/// One of a few counts, or any.
fn count(random: &mut Random, few: &[usize]) -> usize {
    match random.once_in(6) {
        true => any_count(random),
        false => random.pick(few),
    }
}

/// Cells of random bits, most of the time of small numbers.
pub fn noise(random: &mut Random) -> SplitWires {
    let lent = noisy(random);
    let mut tables = lent.tables;
    (tables.vertex_numbers, tables.vertex_floats) = (Vec::new(), Vec::new());
    let tame = !random.once_in(3);
    let set = |random: &mut Random| WireCells {
        uses: cells(random, tame, 5),
        lengths: cells(random, tame, 3),
        wires: count(random, &[0, 0, 1, 2]),
    };
    let (face, rebuilt) = (set(random), set(random));
    tables.vertices = count(random, &[2, 2, 3, tables.vertices]);
    tables.edges = count(random, &[1, 2, 3, tables.edges]);
    let point = |random: &mut Random| match tame && !random.once_in(48) {
        true => float(random).to_bits(),
        false => random.word(),
    };
    SplitWires {
        tables,
        face,
        rebuilt,
        divisor: cells(random, tame, 3),
        points: (0..random.below(14)).map(|_| point(random)).collect(),
        divisor_count: count(random, &[0, 0, 1, 2, 2]),
        surface: random.word() as u32,
        uses: lent.uses,
        lengths: lent.lengths,
    }
}
