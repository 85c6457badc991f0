//! The names of the tree: files, and what is declared in them.

use crate::edges::name_of;
use crate::markdown::Token;
use std::collections::{BTreeMap, BTreeSet};
use std::fs;
use std::path::{Path, PathBuf};

/// Words in backticks that are no names of the tree: of the bench program's lines and answers, of C and Rattle, of the kit and of shells;
/// files that are built; and the signs of the cases.
pub const FOREIGN: [&str; 35] = [
    "?",
    ">",
    ".out",
    "NOST",
    "match",
    "requires",
    "&[u32]",
    "std",
    "libnostrimel.a",
    "axioms=3",
    "native=",
    "sum=",
    "rattle-kit-13f",
    "rattle-kit-5b-plain",
    "memset",
    "N",
    "logic-built",
    "logic-built=trusted",
    "libraries-built",
    "libraries-built=trusted",
    "statements=trusted",
    "rt",
    "x86-64",
    "->",
    "0+8192",
    "8192|40960",
    "(8)",
    "N*4096",
    "N*4096-1",
    "N-2",
    "--words",
    "--help",
    "#if",
    "cargo",
    "bin/rt",
];

/// Files in which a name is said to be, from the root.
pub type Place = Vec<String>;

/// Modifiers before a declaration in an .antt file.
const MODIFIERS: [&str; 5] = ["pub", "unfoldable", "abbrev", "private", "opaque"];

pub struct Names {
    root: PathBuf,
    pub crates: BTreeSet<String>,
    /// The must-fail edits: a crate and a name.
    pub edits: BTreeSet<(String, String)>,
    /// Each declared name with its files.
    declared: BTreeMap<String, BTreeSet<String>>,
    /// All files, from the root.
    files: BTreeSet<String>,
}

impl Names {
    pub fn read(root: &Path) -> Names {
        let mut names = Names {
            root: root.to_path_buf(),
            crates: BTreeSet::new(),
            edits: BTreeSet::new(),
            declared: BTreeMap::new(),
            files: BTreeSet::new(),
        };
        let list = fs::read_to_string(root.join("crates.txt")).expect("crates.txt");
        let lines = list.lines().filter(|line| !line.starts_with('#'));
        let listed = lines.filter_map(|line| line.split_once(':'));
        names.crates = listed.map(|(name, _)| name_of(name)).collect();
        names.enter("");
        assert!(
            names.declared.len() > 2_000,
            "{} names",
            names.declared.len()
        );
        names
    }

    fn enter(&mut self, folder: &str) {
        let entries = fs::read_dir(self.root.join(folder)).expect("a folder");
        for entry in entries {
            let entry = entry.expect("an entry");
            let name = entry.file_name().into_string().expect("UTF-8");
            let path = match folder {
                "" => name.clone(),
                _ => format!("{folder}/{name}"),
            };
            if path == "target" || path == ".git" || path.ends_with("/out") {
                continue;
            }
            if entry.path().is_dir() {
                self.enter(&path);
            } else {
                self.take(&path);
            }
        }
    }

    fn take(&mut self, path: &str) {
        self.files.insert(path.to_string());
        let parts: Vec<&str> = path.split('/').collect();
        let (stem, kind) = path
            .rsplit('/')
            .next()
            .and_then(|name| name.rsplit_once('.'))
            .unwrap_or((path, ""));
        if let ["crates", of, "must-fail", _] = parts[..] {
            self.edits.insert((of.to_string(), stem.to_string()));
            return;
        }
        let read = |root: &Path| fs::read_to_string(root.join(path)).expect("UTF-8");
        let found = match kind {
            "antt" => declared_in_antt(&read(&self.root)),
            "rt" | "rs" => declared_in_code(&read(&self.root)),
            "h" => words_in_header(&read(&self.root)),
            _ => return,
        };
        for name in found.into_iter().chain([stem.to_string()]) {
            self.declared
                .entry(name)
                .or_default()
                .insert(path.to_string());
        }
    }

    /// A file or a folder: from the root, beside the document, in crates/ or in some crate; or one that is built.
    pub fn is_path(&self, word: &str, document: &str) -> bool {
        if !word.contains(['/', '.']) && !self.files.contains(word) {
            return false;
        }
        if word.starts_with("target/") {
            return true;
        }
        let word = word.trim_start_matches("./").trim_end_matches('/');
        let folder = Path::new(document).parent().expect("a document's folder");
        let places = [
            PathBuf::new(),
            folder.to_path_buf(),
            PathBuf::from("crates"),
        ];
        let mut places = places.to_vec();
        places.extend(
            self.crates
                .iter()
                .map(|name| Path::new("crates").join(name)),
        );
        places
            .iter()
            .any(|place| self.root.join(place).join(word).exists())
    }

    /// A declared name, an edit's, a crate's, or a path of these by `::`.
    pub fn is_known(&self, word: &str) -> bool {
        if let Some((outer, inner)) = word.rsplit_once("::") {
            let first = outer.split("::").next().expect("a part");
            let own = format!("crates/{first}/src/");
            return match self.crates.contains(first) {
                true => self.files_of(inner).any(|file| file.starts_with(&own)),
                false => {
                    ["libc", "io"].contains(&first)
                        || (self.is_known(first) && self.is_known(inner))
                }
            };
        }
        let edit = self.edits.iter().any(|(_, name)| name == word);
        edit || self.crates.contains(word) || self.declared.contains_key(word)
    }

    fn files_of(&self, name: &str) -> impl Iterator<Item = &String> {
        self.declared.get(name).into_iter().flatten()
    }

    /// Is the name declared in one of these files?
    pub fn declared_in(&self, name: &str, place: &Place) -> bool {
        let name = name.rsplit("::").next().expect("a part");
        self.files_of(name).any(|file| {
            place
                .iter()
                .any(|place| file == place || file.starts_with(&format!("{place}/")))
        })
    }

    /// The files that a cell names.
    pub fn places(&self, piece: &[Token]) -> Place {
        let mut places = Vec::new();
        let mut at = 0;
        while at < piece.len() {
            let (mut place, length) = self.place_at(&piece[at..]);
            places.append(&mut place);
            at += length.max(1);
        }
        places
    }

    /// A place at the front, and how many tokens it takes: a crate with files behind it, or a link to a file of a crate's, or its path.
    pub fn place_at(&self, tokens: &[Token]) -> (Place, usize) {
        match tokens {
            [Token::Word(of), rest @ ..] if self.crates.contains(of) => {
                let (mut place, mut length) = (Vec::new(), 0);
                for token in rest {
                    match (token, self.module(of, token)) {
                        (Token::Code(_), mut files) if !files.is_empty() => {
                            place.append(&mut files)
                        }
                        (Token::Link { target, .. }, _) if place.is_empty() => match own(target) {
                            Some(file) => place.push(file),
                            None => break,
                        },
                        _ => break,
                    }
                    length += 1;
                }
                match length {
                    0 => (place, 0),
                    _ => (place, length + 1),
                }
            }
            [Token::Link { target, .. }, ..] => match own(target) {
                Some(file) => (vec![file], 1),
                None => (Vec::new(), 0),
            },
            [Token::Code(path), ..] if path.starts_with("crates/") => {
                (vec![path.trim_end_matches('/').to_string()], 1)
            }
            [Token::Word(path), ..] if path.starts_with("crates/") => {
                (vec![path.trim_end_matches('/').to_string()], 1)
            }
            _ => (Vec::new(), 0),
        }
    }

    /// A crate's files of definitions or proofs with this name, if it begins as a module's does.
    fn module(&self, of: &str, token: &Token) -> Place {
        let name = token.code().unwrap_or_default();
        if !name.chars().next().map_or(false, char::is_uppercase) {
            return Vec::new();
        }
        let files = ["specs", "proofs"].map(|part| format!("crates/{of}/{part}/{name}.antt"));
        files
            .into_iter()
            .filter(|file| self.files.contains(file))
            .collect()
    }

    /// The names of a folder's files, without what stands behind the dot.
    pub fn stems(&self, folder: &str) -> BTreeSet<String> {
        let folder = format!("{folder}/");
        let files = self
            .files
            .iter()
            .filter_map(|file| file.strip_prefix(&folder));
        files
            .filter_map(|file| file.split_once('.'))
            .map(|(stem, _)| stem.to_string())
            .collect()
    }
}

/// A link's target, from the root, if it is a file of a crate's.
fn own(target: &str) -> Option<String> {
    let target = target.trim_start_matches("../");
    (target.starts_with("crates/") && target.contains('.')).then(|| target.to_string())
}

/// `pub name : ..`, `record Name ..`, `data Name ..`, at any depth.
fn declared_in_antt(text: &str) -> Vec<String> {
    let mut found = Vec::new();
    for line in text.lines() {
        let words = line
            .split_whitespace()
            .skip_while(|word| MODIFIERS.contains(word));
        let words: Vec<&str> = words.take(8).collect();
        match words[..] {
            ["record" | "data", name, ..] => found.push(name.to_string()),
            [name, ":", ..] => found.push(name.to_string()),
            _ => {
                // Several names of one type.
                let names = words.iter().take_while(|word| **word != ":");
                let names: Vec<&&str> = names.collect();
                if names.len() < words.len() && names.iter().all(|name| is_plain(name)) {
                    found.extend(names.into_iter().map(|name| name.to_string()));
                }
            }
        }
    }
    found
}

/// What stands behind `fn`, `struct`, `enum`, `const`, `mod`, and the cases of an enum.
fn declared_in_code(text: &str) -> Vec<String> {
    let mut found = Vec::new();
    for line in text.lines() {
        let words: Vec<&str> = line
            .split(|letter: char| !(letter.is_alphanumeric() || letter == '_'))
            .collect();
        for pair in words.windows(2) {
            if ["fn", "struct", "enum", "const", "mod"].contains(&pair[0]) {
                found.push(pair[1].to_string());
            }
        }
        let line = line.trim();
        let end = line
            .find(|letter: char| !letter.is_alphanumeric())
            .unwrap_or(line.len());
        let case = line.chars().next().map_or(false, char::is_uppercase)
            && ",({".contains(line[end..].trim_start().chars().next().unwrap_or(' '));
        if case {
            found.push(line[..end].to_string());
        }
    }
    found
}

/// Every word outside the comments.
fn words_in_header(text: &str) -> Vec<String> {
    let parts = text.split("/*");
    let code = parts.map(|part| part.split_once("*/").map_or(part, |(_, code)| code));
    let code = code.collect::<Vec<_>>().join(" ");
    let words = code.split(|letter: char| !(letter.is_alphanumeric() || letter == '_'));
    words.map(str::to_string).collect()
}

fn is_plain(word: &str) -> bool {
    word.chars()
        .all(|letter| letter.is_alphanumeric() || "-_".contains(letter))
}
