//! What people read, held to the tree: every file, theorem, definition, function and edit that a document names is there, in the file
//! that it is said to be in; every relative link leads somewhere; every edit stands in the tables of wrong answers; every crate and every
//! file of the rules in the architecture. Of the landings' notes the last one is held so. And crates.txt names for each crate just those
//! that it cites.
//!
//!     cargo test --offline --locked -p tests --test documents
//!
//! A name stands in backticks. A word in backticks that names nothing of the tree has to be one of `FOREIGN`, so nothing is passed over.

mod edges;
mod markdown;
mod names;

use markdown::{Document, Piece, Token};
use names::{Names, FOREIGN};
use std::collections::BTreeSet;
use std::fs;
use std::path::{Path, PathBuf};

/// The repository's root.
fn root() -> PathBuf {
    Path::new(env!("CARGO_MANIFEST_DIR")).join("..")
}

/// The documents, by their paths from the root.
fn documents() -> Vec<Document> {
    let mut paths = vec![
        "README.md".to_string(),
        "examples/README.md".to_string(),
        "reference/README.md".to_string(),
        "reference/cases/README.md".to_string(),
    ];
    for folder in ["docs", "docs/landings"] {
        let entries = fs::read_dir(root().join(folder)).expect("the documents' folder");
        let names = entries.map(|entry| entry.expect("an entry").file_name());
        let names = names.map(|name| name.into_string().expect("UTF-8"));
        let found = names.filter(|name| name.ends_with(".md"));
        paths.extend(found.map(|name| format!("{folder}/{name}")));
    }
    paths.sort();
    let read = |path: &String| fs::read_to_string(root().join(path)).expect("a document");
    paths
        .iter()
        .map(|path| Document::new(path, &read(path)))
        .collect()
}

/// Those that say what is so: all but the notes on how the repository came to today's Rattle and to its forms, which name what stood
/// before, and the notes of landings before the last one, which name what stood at theirs.
fn held_documents() -> Vec<Document> {
    let note = |document: &Document| {
        let name = document.path.strip_prefix("docs/landings/");
        name.map_or(false, |name| name != "README.md")
    };
    let all = documents();
    let last = all.iter().rfind(|document| note(document));
    let last = last.expect("a landing's note").path.clone();
    all.into_iter()
        .filter(|document| !note(document) || document.path == last)
        .filter(|document| {
            !["docs/PORT.md", "docs/DESIGN-PASS.md"].contains(&document.path.as_str())
        })
        .collect()
}

fn document(path: &str) -> Document {
    let found = documents()
        .into_iter()
        .find(|document| document.path == path);
    found.unwrap_or_else(|| panic!("there is no {path}"))
}

/// Fails with all faults at once, each on a line.
fn hold(faults: Vec<String>) {
    assert!(faults.is_empty(), "\n{}\n", faults.join("\n"));
}

#[test]
fn every_relative_link_leads_somewhere() {
    let documents = documents();
    let (mut faults, mut links) = (Vec::new(), 0);
    for document in &documents {
        for (target, anchor) in document.links() {
            links += 1;
            let place = document.beside(&target);
            if !root().join(&place).exists() {
                faults.push(format!(
                    "{}: the link {target} leads nowhere",
                    document.path
                ));
                continue;
            }
            let there = |other: &&Document| Path::new(&other.path) == place;
            let other = documents.iter().find(there);
            if let (Some(anchor), Some(other)) = (anchor, other) {
                if !other.anchors().contains(&anchor) {
                    faults.push(format!(
                        "{}: {} has no heading #{anchor}",
                        document.path, other.path
                    ));
                }
            }
        }
    }
    hold(faults);
    assert!(links >= 50, "{links} links");
}

#[test]
fn every_name_is_there() {
    let names = Names::read(&root());
    let mut faults = BTreeSet::new();
    let mut used = BTreeSet::new();
    let (mut paths, mut theorems, mut others) = (0, 0, 0);
    for document in held_documents() {
        for word in document.words() {
            if names.is_path(&word, &document.path) {
                paths += 1;
            } else if names.is_known(&word) {
                match word.contains('-') {
                    true => theorems += 1,
                    false => others += 1,
                }
            } else if let Some(foreign) = FOREIGN.iter().find(|foreign| **foreign == word) {
                used.insert(*foreign);
            } else {
                faults.insert(format!(
                    "{}: `{word}` is nothing in the tree",
                    document.path
                ));
            }
        }
    }
    for foreign in FOREIGN.iter().filter(|foreign| !used.contains(*foreign)) {
        faults.insert(format!(
            "no document has the foreign word `{foreign}` any more"
        ));
    }
    hold(faults.into_iter().collect());
    let least = paths >= 45 && theorems >= 100 && others >= 380;
    assert!(
        least,
        "{paths} paths, {theorems} theorems, {others} other names"
    );
}

#[test]
fn every_name_is_where_it_is_said_to_be() {
    let names = Names::read(&root());
    let (mut faults, mut placed) = (Vec::new(), 0);
    for document in held_documents() {
        for (name, place) in document.attributions(&names) {
            placed += 1;
            if !names.declared_in(&name, &place) {
                let places = place.join(", ");
                faults.push(format!("{}: `{name}` is not in {places}", document.path));
            }
        }
    }
    hold(faults);
    assert!(placed >= 100, "{placed} names with a place");
}

/// The tables of theorems name a file for each.
#[test]
fn every_row_of_theorems_names_a_file() {
    let names = Names::read(&root());
    let mut rows = 0;
    for row in document("docs/ARCHITECTURE.md").rows_below(&["theorem", "file"]) {
        rows += 1;
        let places = names.places(&row[1]);
        assert!(!places.is_empty(), "no file is named for {:?}", row[0]);
    }
    assert!(rows >= 30, "{rows} rows");
}

#[test]
fn the_tables_of_wrong_answers_have_every_edit() {
    let names = Names::read(&root());
    let document = document("docs/PROMISES.md");
    let mut told = BTreeSet::new();
    let mut faults = Vec::new();
    for piece in document.below("Wrong answers that each contract rules out") {
        let mut of = String::new();
        for pair in piece.windows(2) {
            if let (Token::Word(word), Token::Code(_)) = (&pair[0], &pair[1]) {
                if names.crates.contains(word) {
                    of = word.clone();
                }
            }
            if let Token::Code(name) = &pair[1] {
                let edit = (of.clone(), name.clone());
                if names.edits.contains(&edit) {
                    told.insert(edit);
                } else if name.contains('_') {
                    faults.push(format!("`{name}` is no edit of the crate {of:?}"));
                }
            }
        }
    }
    let missing = names.edits.difference(&told);
    faults.extend(missing.map(|(of, name)| format!("the edit `{name}` of {of} is not told")));
    hold(faults);
    assert!(told.len() >= 100, "{} edits", told.len());
}

#[test]
fn the_architecture_has_every_crate_and_every_file_of_the_rules() {
    let names = Names::read(&root());
    let document = document("docs/ARCHITECTURE.md");
    let drawing = document.fenced.first().expect("the drawing of the crates");
    let drawn: BTreeSet<&str> = drawing
        .split(|letter: char| !letter.is_alphanumeric())
        .collect();
    for name in &names.crates {
        assert!(drawn.contains(name.as_str()), "the drawing has no {name}");
    }
    let mut told = BTreeSet::new();
    for row in document.rows_below(&["file", "document 01"]) {
        told.extend(row[0].iter().filter_map(Token::code));
    }
    let mut files = names.stems("crates/model/specs");
    files.remove("Lib");
    assert_eq!(told, files, "the table of the rules' files");
}

#[test]
fn every_crate_stands_on_just_those_that_it_cites() {
    let listed = edges::listed(&root());
    let crates: BTreeSet<String> = listed.keys().cloned().collect();
    let (mut faults, mut edges) = (Vec::new(), 0);
    for (name, below) in &listed {
        let cited = edges::named(&root(), &crates, name);
        edges += cited.len();
        for other in below.symmetric_difference(&cited) {
            faults.push(match below.contains(other) {
                true => format!("{name} is said to stand on {other}, and does not name it"),
                false => format!("{name} names {other}, and crates.txt does not say so"),
            });
        }
    }
    hold(faults);
    assert!(edges >= 80, "{edges} edges");
}

/// Where a document says of a folder or a file 'about N lines of definitions', there are as many, give or take a twentieth: lines that are
/// neither empty nor a comment nor an import.
#[test]
fn the_lines_of_definitions() {
    let mut told = 0;
    for document in documents() {
        for piece in document.pieces() {
            for (paths, claimed) in claims(&piece) {
                let stands: usize = paths
                    .iter()
                    .map(|path| definitions(&root().join(path)))
                    .sum();
                let near = stands.abs_diff(claimed) * 20 <= claimed;
                assert!(
                    near,
                    "{}: {paths:?} have {stands} lines of definitions, not {claimed}",
                    document.path
                );
                told += 1;
            }
        }
    }
    assert!(told >= 3, "{told} claims");
}

/// The paths in backticks or links since the last claim, and the number that is claimed of them.
fn claims(piece: &Piece) -> Vec<(Vec<String>, usize)> {
    let mut claims = Vec::new();
    let mut paths = Vec::new();
    for (at, token) in piece.iter().enumerate() {
        match token {
            Token::Code(path) if path.starts_with("crates/") => paths.push(path.clone()),
            Token::Link { text, .. } if text.starts_with("crates/") => paths.push(text.clone()),
            Token::Word(word) if word == "about" => {
                let rest: Vec<&str> = piece[at + 1..]
                    .iter()
                    .take(4)
                    .filter_map(Token::word)
                    .collect();
                if let [number, "lines", "of", "definitions"] = rest[..] {
                    let number = number.replace(',', "").parse().expect("a number of lines");
                    claims.push((std::mem::take(&mut paths), number));
                }
            }
            _ => {}
        }
    }
    claims
}

fn definitions(path: &Path) -> usize {
    if path.is_dir() {
        let entries = fs::read_dir(path).expect("a folder");
        return entries
            .map(|entry| definitions(&entry.expect("an entry").path()))
            .sum();
    }
    let text = fs::read_to_string(path).expect("a file of definitions");
    let counts = |line: &&str| {
        let line = line.trim();
        !line.is_empty() && !line.starts_with("--") && !line.starts_with("use ")
    };
    text.lines().filter(counts).count()
}
