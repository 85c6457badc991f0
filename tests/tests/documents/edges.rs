//! The edges of crates.txt: for each crate those that it is said to stand on, and those that it names.

use std::collections::{BTreeMap, BTreeSet};
use std::fs;
use std::path::Path;

/// The kit's libraries that a crate may stand on too.
const KIT: [&str; 5] = ["check", "libc", "io", "os", "bytes"];

/// Each crate of crates.txt with those on its line.
pub fn listed(root: &Path) -> BTreeMap<String, BTreeSet<String>> {
    let list = fs::read_to_string(root.join("crates.txt")).expect("crates.txt");
    let lines = list.lines().filter(|line| !line.starts_with('#'));
    let rows = lines.filter_map(|line| line.split_once(':'));
    rows.map(|(name, below)| {
        let below = below.split_whitespace().map(str::to_string);
        (name_of(name), below.collect())
    })
    .collect()
}

/// The name of a crate in front of its line's colon, where a static library's is followed by `staticlib`.
pub fn name_of(front: &str) -> String {
    front.split_whitespace().next().unwrap_or("").to_string()
}

/// The crates of these, and of the kit, that the code, the definitions and the proofs below a crate's folder name.
pub fn named(root: &Path, crates: &BTreeSet<String>, own: &str) -> BTreeSet<String> {
    let mut found = BTreeSet::new();
    for part in ["src", "specs", "proofs"] {
        enter(&root.join("crates").join(own).join(part), &mut found);
    }
    found.remove(own);
    found.retain(|name| crates.contains(name) || KIT.contains(&name.as_str()));
    found
}

fn enter(path: &Path, found: &mut BTreeSet<String>) {
    if !path.exists() {
        return;
    }
    if path.is_dir() {
        for entry in fs::read_dir(path).expect("a folder") {
            enter(&entry.expect("an entry").path(), found);
        }
        return;
    }
    let text = fs::read_to_string(path).expect("UTF-8");
    let is_letter = |letter: char| letter.is_ascii_alphanumeric() || letter == '_';
    // A library of a crate's: `Rattle.NAME.`.
    for behind in text.split("Rattle.").skip(1) {
        let end = behind.find(|letter| !is_letter(letter));
        let (name, rest) = behind.split_at(end.unwrap_or(behind.len()));
        if rest.starts_with('.') {
            found.insert(name.to_string());
        }
    }
    // The first name of a path in code.
    if path.extension().map_or(false, |kind| kind == "rt") {
        let is_code = |line: &&str| !line.trim_start().starts_with("//");
        let code: Vec<&str> = text.lines().filter(is_code).collect();
        let code = code.join("\n");
        for (at, _) in code.match_indices("::") {
            let mut names = code[..at].rsplit(|letter| !is_letter(letter));
            let name = names.next().unwrap_or("");
            if !code[..at - name.len()].ends_with(':') {
                found.insert(name.to_string());
            }
        }
    }
}
