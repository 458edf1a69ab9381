//! The pipe healed with its rims cut at every eighth: what is drawn is right.

use std::collections::{BTreeMap, BTreeSet};
use std::ffi::OsString;
use std::process::Command;

use kaugrenna::lent::{EDGE_FLOATS, EDGE_NUMBERS, GIVEN, SEAM, VERTEX_NUMBERS};
use kaugrenna::{cut_parameter, Use};

use crate::picture::{contours, drawn, left, line_of, Line};
use crate::pipe::{healed, Face, HEIGHT, TURN};

/// Calls a test with each number of eighths, its face and where it is cut.
fn for_each_eighth(test: impl Fn(u32, &Face, f64)) {
    for k in 1..=7 {
        let cut = cut_parameter(0.0, TURN, k).unwrap();
        test(k, &healed(k).unwrap(), cut);
    }
}

/// Whether two numbers are the same but for what was rounded.
fn are_near(a: f64, b: f64) -> bool {
    (a - b).abs() < 1.0e-9
}

/// Whether two uv points are the same place on the pipe.
fn are_one_place([u0, v0]: [f64; 2], [u1, v1]: [f64; 2]) -> bool {
    let turns = (u1 - u0) / TURN;
    are_near(turns, turns.round()) && v0 == v1
}

/// The front and the back of a use.
fn ends(face: &Face, used: Use) -> [u32; 2] {
    let row = &face.tables.edge_numbers[used.edge as usize * EDGE_NUMBERS..];
    if used.reversed {
        [row[1], row[0]]
    } else {
        [row[0], row[1]]
    }
}

/// Twice the area inside of lines.
fn doubled_area(lines: &[Line]) -> f64 {
    let part = |[[u0, v0], [u1, v1]]: &Line| u0 * v1 - u1 * v0;
    lines.iter().map(part).sum()
}

/// Words that are not to the usage.
const WRONG: [&[&str]; 11] = [
    &[""],
    &["k"],
    &["3"],
    &["k="],
    &["k=0"],
    &["k=8"],
    &["k=04"],
    &["k=4 "],
    &["k=4\n"],
    &["K=4"],
    &["k=4", "k=4"],
];

/// What these words ask for.
fn asked(words: &[&str]) -> Option<String> {
    let words: Vec<_> = words.iter().map(OsString::from).collect();
    crate::picture_of(&words).unwrap()
}

#[test]
fn a_word_asks_for_its_eighth() {
    for k in 1..=7 {
        let picture = drawn(&healed(k).unwrap()).unwrap();
        assert_eq!(asked(&[&format!("k={k}")]), Some(picture));
    }
    for words in WRONG {
        assert_eq!(asked(words), None, "{words:?}");
    }
}

#[test]
fn without_a_word_the_stored_picture_is_drawn() {
    let stored = include_str!("../../../../tests/pipe/plate.svg");
    assert_eq!(asked(&[]).as_deref(), Some(stored));
}

#[test]
fn the_script_judges_the_words_before_it_makes_anything() {
    let script = concat!(env!("CARGO_MANIFEST_DIR"), "/../../tools/plate");
    // With no program at hand, so that it can make nothing.
    let bare = ["-c", "PATH=; . \"$0\"", script];
    for words in WRONG {
        let run = Command::new("bash").args(bare).args(words).output();
        let run = run.unwrap();
        assert_eq!(run.status.code(), Some(2), "{words:?}");
        assert!(run.stdout.is_empty(), "{words:?}");
        let said = String::from_utf8(run.stderr).unwrap();
        assert_eq!(said, format!("{}\n", crate::USAGE), "{words:?}");
    }
}

#[test]
fn the_script_ends_by_handing_the_word_on() {
    let script = include_str!("../../../../tools/plate");
    assert!(script.ends_with(" --example plate -- \"$@\"\n"));
}

#[test]
fn every_eighth_draws_a_picture_of_its_own() {
    let pictures = (1..=7).map(|k| drawn(&healed(k).unwrap()).unwrap());
    assert_eq!(BTreeSet::from_iter(pictures).len(), 7);
}

#[test]
fn the_new_vertices_lie_at_the_cut() {
    for_each_eighth(|k, face, cut| {
        assert!(are_near(cut, TURN * f64::from(k) / 8.0));
        let points = [[0.0, 0.0], [0.0, HEIGHT], [cut, 0.0], [cut, HEIGHT]];
        assert_eq!(face.points, points);
        let given = [GIVEN; 4 * VERTEX_NUMBERS];
        assert_eq!(face.tables.vertex_numbers, given);
    });
}

#[test]
fn both_ends_of_every_edge_lie_at_its_vertices() {
    for_each_eighth(|k, face, cut| {
        assert_eq!(face.tables.edges, 6);
        for number in 0..12 {
            let used = Use::of(number);
            let line = line_of(&face.tables, used);
            for (end, vertex) in line.into_iter().zip(ends(face, used)) {
                let point = face.points[vertex as usize];
                assert!(are_one_place(end, point), "{k}: {used}");
            }
        }
        // Of each rim one piece is before the cut and the other behind it.
        for (piece, range) in [0, 2, 1, 3]
            .into_iter()
            .zip([[0.0, cut], [cut, TURN]].repeat(2))
        {
            let floats = &face.tables.edge_floats[piece * EDGE_FLOATS..];
            assert_eq!(floats[4..6], range);
        }
    });
}

#[test]
fn the_seams_run_from_rim_to_rim() {
    for_each_eighth(|_, face, cut| {
        for (seam, ends, u) in [(4, [0, 1], 0.0), (5, [2, 3], cut)] {
            let row = &face.tables.edge_numbers[seam * EDGE_NUMBERS..];
            assert_eq!((&row[..2], row[2]), (&ends[..], SEAM));
            let floats = &face.tables.edge_floats[seam * EDGE_FLOATS..];
            assert_eq!([floats[0], floats[2]], [u; 2]);
        }
    });
}

#[test]
fn the_contours_are_closed() {
    for_each_eighth(|k, face, _| {
        for contour in contours(face).unwrap() {
            let next = contour.iter().cycle().skip(1);
            for ((used, line), (next, next_line)) in contour.iter().zip(next) {
                let vertices = [ends(face, *used)[1], ends(face, *next)[0]];
                assert_eq!(vertices[0], vertices[1], "{k}: {used} {next}");
                let [[u0, v0], [u1, v1]] = [line[1], next_line[0]];
                assert!(are_near(u0, u1) && v0 == v1, "{k}: {used} {next}");
            }
        }
    });
}

#[test]
fn no_use_is_lost() {
    // Each piece of a rim once, as its rim was used, and each seam once each way.
    let all = ["0+", "2+", "1-", "3-", "4+", "4-", "5+", "5-"];
    let all = BTreeMap::from(all.map(|used| (used.to_string(), 1)));
    for_each_eighth(|_, face, _| {
        let mut tally = BTreeMap::new();
        for (used, _) in contours(face).unwrap().concat() {
            *tally.entry(used.to_string()).or_insert(0) += 1;
        }
        assert_eq!(tally, all);
    });
}

#[test]
fn the_contours_divide_the_plate_at_the_cut() {
    for_each_eighth(|k, face, cut| {
        let contours = contours(face).unwrap();
        let lines = |contour: &Vec<(Use, Line)>| contour.iter().map(|(_, line)| *line).collect();
        let lines: Vec<Vec<Line>> = contours.iter().map(lines).collect();
        let areas: Vec<_> = lines.iter().map(|lines| doubled_area(lines)).collect();
        assert_eq!(areas.len(), 2);
        assert!(are_near(areas[0], 2.0 * HEIGHT * (TURN - cut)), "{k}");
        assert!(are_near(areas[1], 2.0 * HEIGHT * cut), "{k}");
        for [u, v] in lines.concat().concat() {
            assert!(left(face) - 1.0e-9 < u && u < cut + 1.0e-9, "{k}: {u}");
            assert!(v == 0.0 || v == HEIGHT, "{k}: {v}");
        }
    });
}

/// The numbers in a quoted word, behind this beginning.
fn numbers<const N: usize>(element: &str, beginning: &str) -> [f64; N] {
    let (_, rest) = element.split_once(beginning).unwrap();
    let (word, _) = rest.split_once('"').unwrap();
    let numbers = word.split([' ', ',']).map(|number| number.parse().unwrap());
    numbers.collect::<Vec<_>>().try_into().unwrap()
}

/// The elements of a picture with this name.
fn elements<'a>(picture: &'a str, name: &str) -> Vec<&'a str> {
    picture.split(name).skip(1).collect()
}

/// The box round each text: from x, from y, to x, to y.
fn texts(picture: &str) -> Vec<[f64; 4]> {
    let round = |text: &str| {
        let ([x], [y]) = (numbers(text, "x=\""), numbers(text, "y=\""));
        [x - 18.0, y - 8.0, x + 18.0, y + 8.0]
    };
    elements(picture, "<text").into_iter().map(round).collect()
}

/// The box round the shaft of each arrow.
fn shafts(picture: &str) -> Vec<[f64; 4]> {
    let round = |shaft: &str| {
        let [x0, y0, x1, y1]: [f64; 4] = numbers(shaft, "points=\"");
        [x0.min(x1), y0.min(y1), x0.max(x1), y0.max(y1)]
    };
    let shafts = elements(picture, "<polyline");
    shafts.into_iter().map(round).collect()
}

#[test]
fn every_text_can_be_read() {
    for_each_eighth(|k, face, _| {
        let picture = drawn(face).unwrap();
        let (texts, shafts) = (texts(&picture), shafts(&picture));
        assert_eq!([texts.len(), shafts.len()], [8; 2]);
        for (i, a) in texts.iter().enumerate() {
            let is_apart = |b: &[f64; 4]| a[2] < b[0] || b[2] < a[0] || a[3] < b[1] || b[3] < a[1];
            assert!(texts[i + 1..].iter().chain(&shafts).all(is_apart), "{k}");
        }
    });
}
