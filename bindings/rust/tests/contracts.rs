//! The contracts can be read: no line of a clause is above 140 characters.

use std::fs;
use std::path::{Path, PathBuf};

/// What lies in a folder, by name.
fn entries(folder: &Path) -> Vec<PathBuf> {
    let entries = fs::read_dir(folder).expect("a folder");
    let mut paths: Vec<_> = entries.map(|one| one.expect("an entry").path()).collect();
    paths.sort();
    paths
}

/// The sources in a folder and in those below it.
fn sources(folder: &Path) -> Vec<PathBuf> {
    let of = |path: PathBuf| {
        if path.is_dir() {
            sources(&path)
        } else {
            vec![path]
        }
    };
    entries(folder).into_iter().flat_map(of).collect()
}

/// The lines of a source that belong to a clause: from its keyword on, until
/// its braces are closed.
fn clauses(source: &str) -> Vec<&str> {
    let mut lines = Vec::new();
    let mut open = 0;
    for line in source.lines() {
        let keyword = line.split_whitespace().next();
        if open > 0 || matches!(keyword, Some("ensures" | "requires")) {
            open += line.matches('{').count();
            open -= line.matches('}').count();
            lines.push(line);
        }
    }
    lines
}

#[test]
fn lines_of_a_clause() {
    let source = "fn f()\n    ensures { let a = g { 1 } in\n        a }\n{\n    f()\n}\n";
    let clause = ["    ensures { let a = g { 1 } in", "        a }"];
    assert_eq!(clauses(source), clause);
}

#[test]
fn no_line_of_a_clause_is_too_long() {
    let crates = Path::new(env!("CARGO_MANIFEST_DIR")).join("../../crates");
    let mut exports = 0;
    for path in entries(&crates)
        .iter()
        .flat_map(|one| sources(&one.join("src")))
    {
        let source = fs::read_to_string(&path).expect("a source");
        for line in clauses(&source) {
            assert!(line.chars().count() <= 140, "{}: {line}", path.display());
        }
        exports += source.matches("pub extern \"C\" fn").count();
    }
    // All twelve exports were among them.
    assert_eq!(exports, 12);
}
