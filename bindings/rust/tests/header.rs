//! The C header says what the exports, this crate and README say: the
//! declarations, the constants and the sentences.

use std::collections::BTreeMap;
use std::fs;
use std::path::Path;

use kaugrenna::raw::{self, Period};
use kaugrenna::{lent, BoundaryType, Preparation, Refusal};

const HEADER: &str = include_str!("../../../include/kaugrenna.h");

/// The twelve calls by name, each with its arguments: what stands between
/// `before` and `after`, as this text writes a call.
fn calls(text: &str, before: &str, after: &str) -> BTreeMap<String, Vec<String>> {
    let call = |call: &str| {
        let (name, rest) = call.split_once('(').expect("arguments");
        let (arguments, rest) = rest.split_once(')').expect("an end of arguments");
        assert!(rest.starts_with(after), "{name}");
        let arguments = arguments.split(',').map(str::trim);
        let arguments = arguments.filter(|argument| !argument.is_empty());
        (name.into(), arguments.map(String::from).collect())
    };
    let start = format!("{before}kaugrenna_");
    let calls: BTreeMap<_, _> = text.split(&start).skip(1).map(call).collect();
    assert_eq!(calls.len(), 12);
    calls
}

/// The calls that `raw::c` declares.
fn declared() -> BTreeMap<String, Vec<String>> {
    calls(include_str!("../src/raw/c.rs"), "pub fn ", " -> i32;")
}

/// Calls with every argument written as `raw::c` writes it.
fn written(
    calls: BTreeMap<String, Vec<String>>,
    write: fn(&str) -> Vec<String>,
) -> BTreeMap<String, Vec<String>> {
    let write_all = |arguments: Vec<String>| arguments.iter().flat_map(|one| write(one)).collect();
    let calls = calls.into_iter();
    calls
        .map(|(name, arguments)| (name, write_all(arguments)))
        .collect()
}

/// An argument of the header.
fn of_header(argument: &str) -> Vec<String> {
    let (kind, name) = argument.rsplit_once([' ', '*']).expect("a type and a name");
    let number = match kind.trim_start_matches("const ").trim() {
        "uint32_t" => "u32",
        "double" => "f64",
        "size_t" => "usize",
        other => panic!("{other} is not a type of the header"),
    };
    let pointer = match (argument.contains('*'), argument.starts_with("const")) {
        (false, _) => "",
        (true, false) => "*mut ",
        (true, true) => "*const ",
    };
    vec![format!("{name}: {pointer}{number}")]
}

/// An argument of an export, where a slice is one; else it is a pointer and a
/// length.
fn of_export(argument: &str) -> Vec<String> {
    let (name, kind) = argument.split_once(": ").expect("a name and a type");
    let Some(lent) = kind.strip_prefix('&') else {
        return vec![argument.into()];
    };
    let (pointer, lent) = match lent.strip_prefix("mut ") {
        Some(lent) => ("*mut", lent),
        None => ("*const", lent),
    };
    let number = lent.trim_matches(['[', ']']);
    let mut arguments = vec![format!("{name}: {pointer} {number}")];
    if lent.starts_with('[') {
        arguments.push(format!("{name}_len: usize"));
    }
    arguments
}

#[test]
fn the_declarations_are_those_of_the_header() {
    let header = calls(HEADER, "int32_t ", ";");
    assert_eq!(declared(), written(header, of_header));
}

#[test]
fn the_declarations_are_those_of_the_exports() {
    let folder = Path::new(env!("CARGO_MANIFEST_DIR")).join("../../crates/healing/src");
    let files = fs::read_dir(folder).unwrap();
    let texts = files.map(|file| fs::read_to_string(file.unwrap().path()).unwrap());
    let exports = calls(
        &texts.collect::<String>(),
        "pub extern \"C\" fn ",
        " -> i32\n",
    );
    assert_eq!(declared(), written(exports, of_export));
}

/// The numbers to which the header gives names, without their prefix.
fn constants() -> BTreeMap<String, f64> {
    let number = |text: &str| text.trim_matches(['(', ')']).parse().ok();
    let defined = |line: &str| {
        let (name, value) = line.strip_prefix("#define KAUGRENNA_")?.split_once(' ')?;
        Some((name.into(), number(value)?))
    };
    let listed = |enumerator: &str| {
        let (name, value) = enumerator.split_once(" = ")?;
        let (_, name) = name.split_once("KAUGRENNA_")?;
        Some((name.into(), number(value.trim())?))
    };
    let lists = HEADER.split("\nenum ").skip(1);
    let lists = lists.filter_map(|list| list.split_once('}'));
    let enumerators = lists.flat_map(|(list, _)| list.split(','));
    let lines = HEADER.lines().filter_map(defined);
    lines.chain(enumerators.filter_map(listed)).collect()
}

/// The name of a case as the header writes it: `NoRoom` is `NO_ROOM`.
fn as_constant(case: impl std::fmt::Debug) -> String {
    let letter = |letter: char| match letter.is_uppercase() {
        true => format!("_{letter}"),
        false => letter.to_uppercase().to_string(),
    };
    let name: String = format!("{case:?}").chars().map(letter).collect();
    name.trim_start_matches('_').into()
}

#[test]
fn the_constants_are_those_of_the_module() {
    let version = [
        env!("CARGO_PKG_VERSION_MAJOR"),
        env!("CARGO_PKG_VERSION_MINOR"),
        env!("CARGO_PKG_VERSION_PATCH"),
    ];
    let version = version.map(|number| number.parse::<f64>().unwrap());
    let version = version.iter().fold(0.0, |all, number| all * 100.0 + number);
    let kind = |period: Option<f64>| f64::from(Period::from(period).kind);
    let numbers = [
        ("VERSION", version),
        ("NUMBERS_PER_EDGE", lent::EDGE_NUMBERS as f64),
        ("FLOATS_PER_EDGE", lent::EDGE_FLOATS as f64),
        ("NUMBERS_PER_VERTEX", lent::VERTEX_NUMBERS as f64),
        ("FLOATS_PER_VERTEX", lent::VERTEX_FLOATS as f64),
        ("FLOATS_PER_CUT", lent::CUT_FLOATS as f64),
        ("FLOATS_PER_STOP", lent::POINT_FLOATS as f64),
        ("FLOATS_PER_WIRE", lent::END_FLOATS as f64),
        ("MAX_ROWS", lent::MAX_ROWS as f64),
        ("MAX_WIRES", lent::MAX_WIRES as f64),
        ("MAX_USES", lent::MAX_USES as f64),
        ("MAX_CUTS", lent::MAX_CUTS as f64),
        ("MAX_SIZE", lent::MAX_SIZE),
        ("MIDDLE", kaugrenna::MIDDLE.into()),
        ("DONE", raw::DONE.into()),
        ("NONE", raw::NONE.into()),
        ("SPAN", lent::SPAN.into()),
        ("SEAM", lent::SEAM.into()),
        ("GIVEN", lent::GIVEN.into()),
        ("PENDING", lent::PENDING.into()),
        ("ABSENT", kind(None)),
        ("EVERY", kind(Some(1.0))),
    ];
    let mut module = BTreeMap::from(numbers.map(|(name, number)| (name.into(), number)));
    let kinds = [
        BoundaryType::Positive,
        BoundaryType::Negative,
        BoundaryType::NotClosed,
    ];
    module.extend(kinds.map(|kind| (as_constant(kind), f64::from(kind as u32))));
    let preparations = Preparation::ALL.map(|one| (as_constant(one), u32::from(one).into()));
    module.extend(preparations);
    let refusals = Refusal::ALL.map(|refusal| (as_constant(refusal), refusal.number().into()));
    module.extend(refusals);
    assert_eq!(constants(), module);
    let text = format!("VERSION_TEXT \"{}\"\n", env!("CARGO_PKG_VERSION"));
    assert!(HEADER.contains(&text), "{text}");
}

#[test]
fn the_widths_the_preparations_and_the_refusals_are_those_of_the_crates() {
    let crates = [
        include_str!("../../../crates/compress/src/lib.rt"),
        include_str!("../../../crates/edge_cuts/src/cuts.rt"),
        include_str!("../../../crates/split/src/seams.rt"),
        include_str!("../../../crates/wire_kinds/src/lib.rt"),
    ];
    let widths = constants().into_iter();
    let widths = widths.filter(|(name, _)| name.contains("S_PER_"));
    let lines = widths.map(|(name, width)| format!("const {name}: usize = {width};\n"));
    let mut lines: Vec<_> = lines.collect();
    assert_eq!(lines.len(), 7);
    let case = |case: &dyn std::fmt::Debug, number| format!("    {case:?} = {number},\n");
    lines.extend(Preparation::ALL.map(|preparation| case(&preparation, preparation as i32)));
    lines.extend(Refusal::ALL.map(|refusal| case(&refusal, refusal.number())));
    for line in lines {
        assert!(crates.concat().contains(&line), "{line}");
    }
}

#[test]
fn the_bounds_are_those_of_readme() {
    let with_comma = |number: usize| format!("{},{:03}", number / 1000, number % 1000);
    let [rows, uses] = [lent::MAX_ROWS, lent::MAX_USES].map(with_comma);
    let wires = lent::MAX_WIRES;
    let bounds = format!("Bounds: {rows} vertices, {rows} edges, {wires} wires into a call, {uses} uses in all wires of a call");
    let readme = include_str!("../../../README.md");
    assert!(readme.contains(&bounds), "{bounds}");
    let header = HEADER.replace("\n *", "");
    assert!(header.contains(&bounds), "{bounds}");
    let cuts = format!("more than {} places", lent::MAX_CUTS);
    let sentence = Refusal::TooManyCuts.to_string();
    assert!(sentence.ends_with(&cuts), "{sentence}");
}

/// What `kaugrenna_text` says, by the name of its case.
fn sentences() -> BTreeMap<String, String> {
    let (_, function) = HEADER.split_once("kaugrenna_text(int32_t code)").unwrap();
    let (function, _) = function.split_once("\n}\n").unwrap();
    let sentence = |case: &str| {
        let (name, sentence) = case.split_once(':').unwrap();
        let pieces = sentence.split('"').skip(1).step_by(2);
        (name.into(), pieces.collect())
    };
    let cases = function.split("case KAUGRENNA_").skip(1);
    let cases = cases.map(|case| case.split("default:").next().unwrap());
    cases.map(sentence).collect()
}

#[test]
fn the_sentences_are_those_of_the_module() {
    let mut sentences = sentences();
    for code in ["DONE", "NONE"] {
        assert!(sentences.remove(code).is_some(), "{code}");
    }
    let module = Refusal::ALL.map(|refusal| (as_constant(refusal), refusal.to_string()));
    assert_eq!(sentences, BTreeMap::from(module));
}
