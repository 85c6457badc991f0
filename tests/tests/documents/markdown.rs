//! As much of Markdown as the documents use: paragraphs, tables, fenced blocks, links, headings, and words in backticks.

use crate::names::{Names, Place};
use std::collections::BTreeSet;
use std::path::{Component, Path, PathBuf};

#[derive(Clone, Debug, PartialEq)]
pub enum Token {
    /// What stands in backticks.
    Code(String),
    Link {
        text: String,
        target: String,
    },
    Word(String),
    /// A bracket opens.
    Open,
    /// The end of a sentence or of one of its parts.
    Stop,
}

impl Token {
    pub fn code(&self) -> Option<String> {
        match self {
            Token::Code(text) => Some(text.clone()),
            _ => None,
        }
    }

    pub fn word(&self) -> Option<&str> {
        match self {
            Token::Word(word) => Some(word),
            _ => None,
        }
    }
}

/// A paragraph, or a cell of a table.
pub type Piece = Vec<Token>;

pub struct Document {
    /// From the repository's root.
    pub path: String,
    /// The fenced blocks.
    pub fenced: Vec<String>,
    /// All other lines.
    lines: Vec<String>,
}

impl Document {
    pub fn new(path: &str, text: &str) -> Document {
        let (mut fenced, mut lines) = (Vec::new(), Vec::new());
        let mut block: Option<Vec<&str>> = None;
        for line in text.lines() {
            match (line.trim_start().starts_with("```"), block.take()) {
                (true, None) => block = Some(Vec::new()),
                (true, Some(done)) => fenced.push(done.join("\n")),
                (false, Some(mut open)) => {
                    open.push(line);
                    block = Some(open);
                }
                (false, None) => lines.push(line.to_string()),
            }
        }
        assert!(block.is_none(), "{path}: a fenced block has no end");
        let path = path.to_string();
        Document {
            path,
            fenced,
            lines,
        }
    }

    /// A relative link's place, from the root.
    pub fn beside(&self, target: &str) -> PathBuf {
        let folder = Path::new(&self.path)
            .parent()
            .expect("a document has a folder");
        let mut place = PathBuf::new();
        for part in folder.join(target).components() {
            match part {
                Component::ParentDir => {
                    assert!(place.pop(), "{target} leads out of the repository")
                }
                Component::CurDir => {}
                part => place.push(part),
            }
        }
        place
    }

    /// The relative links, each with its anchor.
    pub fn links(&self) -> Vec<(String, Option<String>)> {
        let tokens = self.pieces().into_iter().flatten();
        let targets = tokens.filter_map(|token| match token {
            Token::Link { target, .. } if !target.contains("://") => Some(target),
            _ => None,
        });
        let own = Path::new(&self.path).file_name().expect("a file's name");
        let own = own.to_str().expect("UTF-8").to_string();
        targets
            .map(|target| match target.split_once('#') {
                Some(("", anchor)) => (own.clone(), Some(anchor.to_string())),
                Some((file, anchor)) => (file.to_string(), Some(anchor.to_string())),
                None => (target, None),
            })
            .collect()
    }

    /// What a link to a heading of this document says behind the `#`.
    pub fn anchors(&self) -> BTreeSet<String> {
        let headings = self.lines.iter().filter(|line| line.starts_with('#'));
        let anchor = |heading: &String| {
            let text = heading.trim_start_matches('#').trim().to_lowercase();
            let kept = text
                .chars()
                .filter(|letter| letter.is_alphanumeric() || " -_".contains(*letter));
            kept.map(|letter| if letter == ' ' { '-' } else { letter })
                .collect()
        };
        headings.map(anchor).collect()
    }

    /// All paragraphs and cells.
    pub fn pieces(&self) -> Vec<Piece> {
        self.pieces_of(&self.lines)
    }

    fn pieces_of(&self, lines: &[String]) -> Vec<Piece> {
        let mut pieces = Vec::new();
        let mut paragraph = String::new();
        for line in lines {
            let cells = cells(line);
            let begins = line.trim().is_empty()
                || line.starts_with('#')
                || is_item(line)
                || !cells.is_empty();
            if begins {
                pieces.push(tokens(&std::mem::take(&mut paragraph)));
            }
            if cells.is_empty() {
                paragraph.push_str(line);
                paragraph.push('\n');
            } else {
                pieces.extend(cells.iter().map(|cell| tokens(cell)));
            }
        }
        pieces.push(tokens(&paragraph));
        pieces.retain(|piece| !piece.is_empty());
        pieces
    }

    /// The pieces below a heading, up to the next.
    pub fn below(&self, heading: &str) -> Vec<Piece> {
        let is_it = |line: &&String| line.trim_start_matches('#').trim() == heading;
        let from = self.lines.iter().position(|line| is_it(&line));
        let from = from.unwrap_or_else(|| panic!("{}: no heading {heading:?}", self.path)) + 1;
        let length = self.lines[from..]
            .iter()
            .position(|line| line.starts_with('#'));
        let end = length.map_or(self.lines.len(), |length| from + length);
        self.pieces_of(&self.lines[from..end])
    }

    /// The rows of every table whose first columns have these heads.
    pub fn rows_below(&self, heads: &[&str]) -> Vec<Vec<Piece>> {
        let mut rows = Vec::new();
        let mut inside = false;
        for line in &self.lines {
            let cells = cells(line);
            if cells.is_empty() {
                inside = false;
            } else if cells
                .iter()
                .map(|cell| cell.trim())
                .take(heads.len())
                .eq(heads.iter().copied())
            {
                inside = true;
            } else if inside && !line.starts_with("|--") {
                rows.push(cells.iter().map(|cell| tokens(cell)).collect());
            }
        }
        rows
    }

    /// All that has to name something: what stands in backticks if it is one word, else the words in it that only a name can be; the files
    /// that are named without backticks; and the theorems that are printed with their statements.
    pub fn words(&self) -> Vec<String> {
        let mut words = Vec::new();
        for token in self.pieces().into_iter().flatten() {
            match token {
                Token::Code(text) => match text.split_whitespace().count() {
                    1 => words.push(text),
                    _ => words.extend(names_in(&text)),
                },
                Token::Word(word) if word.contains('/') && word.contains('.') => words.push(word),
                _ => {}
            }
        }
        let printed = self
            .lines
            .iter()
            .filter_map(|line| line.strip_prefix("    "));
        let named = printed.filter_map(|line| line.split_once(" : "));
        words.extend(
            named
                .map(|(name, _)| name.to_string())
                .filter(|name| is_name(name)),
        );
        words
    }

    /// Each name of which the document says in which files it is: a name, and a crate with a file behind it in the same part of a sentence;
    /// or the first two columns of a table of theorems.
    pub fn attributions(&self, names: &Names) -> Vec<(String, Place)> {
        let mut found = Vec::new();
        for row in self.rows_below(&["theorem", "file"]) {
            let place = names.places(&row[1]);
            let listed = row[0].iter().filter_map(Token::code);
            found.extend(listed.map(|name| (name, place.clone())));
        }
        for piece in self.pieces() {
            found.extend(attributed(&piece, names));
        }
        found
    }
}

/// In one piece: the theorems since the last stop or place, and any names that stand right before the place.
fn attributed(piece: &Piece, names: &Names) -> Vec<(String, Place)> {
    let (mut found, mut pending, mut near) = (Vec::new(), Vec::new(), Vec::new());
    let mut at = 0;
    while at < piece.len() {
        let (place, length) = names.place_at(&piece[at..]);
        if length > 0 {
            pending.append(&mut near);
            found.extend(pending.drain(..).map(|name| (name, place.clone())));
            at += length;
            continue;
        }
        match &piece[at] {
            Token::Code(text) => {
                let name = text.split_whitespace().next().unwrap_or("").to_string();
                if !names.is_known(&name) || names.crates.contains(&name) {
                    near.clear();
                } else if name.contains('-') {
                    pending.push(name);
                } else {
                    near.push(name);
                }
            }
            Token::Word(word)
                if ["and", "in", "is", "of"].contains(&word.as_str())
                    || names.crates.contains(word) => {}
            Token::Open => {}
            Token::Word(_) | Token::Link { .. } => near.clear(),
            Token::Stop => {
                pending.clear();
                near.clear();
            }
        }
        at += 1;
    }
    found
}

/// The cells of a table's row.
fn cells(line: &str) -> Vec<String> {
    let line = line.trim();
    if !line.starts_with('|') || line.len() < 2 {
        return Vec::new();
    }
    let line = line.trim_matches('|').replace("\\|", "\u{0}");
    let cells = line.split('|');
    cells
        .map(|cell| cell.replace('\u{0}', "|").trim().to_string())
        .collect()
}

/// Does a line begin an item of a list?
fn is_item(line: &str) -> bool {
    let line = line.trim_start();
    let number = line.trim_start_matches(|letter: char| letter.is_ascii_digit());
    line.starts_with("- ") || (number.len() < line.len() && number.starts_with(". "))
}

fn tokens(text: &str) -> Piece {
    let mut tokens = Vec::new();
    let mut rest = text;
    while let Some(letter) = rest.chars().next() {
        if letter == '`' {
            let (code, behind) = rest[1..]
                .split_once('`')
                .unwrap_or_else(|| panic!("a backtick alone: {text}"));
            tokens.push(Token::Code(
                code.split_whitespace().collect::<Vec<_>>().join(" "),
            ));
            rest = behind;
        } else if let Some((text, target, behind)) = link(rest) {
            tokens.push(Token::Link { text, target });
            rest = behind;
        } else if is_of_word(letter) {
            let end = rest
                .find(|letter| !is_of_word(letter))
                .unwrap_or(rest.len());
            let word = rest[..end].trim_end_matches(['.', ',', ':']);
            let ends = rest[..end].ends_with('.');
            let word = word.strip_suffix("'s").unwrap_or(word);
            if !word.is_empty() {
                tokens.push(Token::Word(word.to_string()));
            }
            if ends {
                tokens.push(Token::Stop);
            }
            rest = &rest[end..];
        } else {
            match letter {
                ';' => tokens.push(Token::Stop),
                '(' => tokens.push(Token::Open),
                _ => {}
            }
            rest = &rest[letter.len_utf8()..];
        }
    }
    tokens
}

fn is_of_word(letter: char) -> bool {
    letter.is_alphanumeric() || "-_/.,:'".contains(letter)
}

/// A link at the front: its text, its target, and what stands behind it.
fn link(text: &str) -> Option<(String, String, &str)> {
    let (label, rest) = text.strip_prefix('[')?.split_once("](")?;
    let (target, behind) = rest.split_once(')')?;
    let plain = label.trim_matches('`').to_string();
    (!label.contains('[')).then(|| (plain, target.to_string(), behind))
}

/// The words of a longer text in backticks that only a name can be: with a hyphen, an underscore or a capital inside.
fn names_in(text: &str) -> Vec<String> {
    let words = text.split(|letter: char| !(letter.is_alphanumeric() || "-_".contains(letter)));
    let words = words.filter(|word| is_name(word)).map(str::to_string);
    words.collect()
}

fn is_name(word: &str) -> bool {
    let mut letters = word.chars();
    let first = letters.next().map_or(false, char::is_lowercase);
    let last = word.chars().last().map_or(false, char::is_alphanumeric);
    first && last && letters.any(|letter| letter.is_uppercase() || "-_".contains(letter))
}
