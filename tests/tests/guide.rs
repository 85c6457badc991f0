//! docs/GUIDE.md and docs/TEACHER.md: their calls are made in the order in which they stand there, on the second program and
//! on the bench program, and their answers, drawings, counts of runs, holdings and tables of sizes are the ones that come. What the
//! guide says of counts and of holdings, the examples in C print; and what it shows of C, they have.

use reference::bench::{Bench, WORDS};
use reference::calls::Call;
use reference::holdings::Holding;
use reference::lines::{parse, render};
use reference::sizes::{chunk_count, chunk_size, need, Need, PAGE_BYTES, ZONE_PAGES};
use reference::state::{Page, State};
use std::collections::VecDeque;
use std::fs;
use tests::program::answers;

const GUIDE: &str = include_str!("../../docs/GUIDE.md");
const TEACHER: &str = include_str!("../../docs/TEACHER.md");
const TIMING: &str = include_str!("../../examples/timing.out");
const HOLDINGS: &str = include_str!("../../examples/holdings.out");
const CEILINGS: &str = include_str!("../../examples/ceilings.out");

/// What stands before a line that is typed.
const TYPED: &str = "> ";

/// What stands above requests with their counts.
const COUNTS: &str = "group  bytes  answer    runs looked at";

/// What stands above the groups with what they hold.
const RECORDS: &str = "group  blocks  held bytes  greatest";

/// A fenced block: what is said behind its fence, and its lines.
struct Block {
    kind: &'static str,
    lines: Vec<&'static str>,
}

fn blocks(document: &'static str) -> Vec<Block> {
    let mut blocks = Vec::new();
    let mut lines = document.lines();
    while let Some(line) = lines.next() {
        if let Some(kind) = line.strip_prefix("```") {
            let lines = lines.by_ref().take_while(|line| *line != "```").collect();
            blocks.push(Block { kind, lines });
        }
    }
    blocks
}

#[test]
fn every_answer_and_every_drawing_of_the_guide() {
    let (sessions, drawings) = hold(GUIDE);
    assert!(sessions >= 32 && drawings >= 30, "{sessions}, {drawings}");
}

#[test]
fn every_answer_and_every_drawing_for_the_teacher() {
    let (sessions, drawings) = hold(TEACHER);
    assert!(sessions >= 11 && drawings >= 5, "{sessions}, {drawings}");
}

/// Every block of a document is what comes; how many sessions and drawings there were. A session is the bench program's, on from where
/// the last one ended, unless a number of words is named: then it is the second program's with so many.
fn hold(document: &'static str) -> (usize, usize) {
    let (mut words, mut bench) = (WORDS, Bench::new(WORDS));
    let (mut sessions, mut drawings) = (0, 0);
    let mut requests = Vec::new();
    for block in blocks(document) {
        let told = block.lines.join("\n");
        let stands = match block.kind.split_once(' ').unwrap_or((block.kind, "")) {
            ("session", lent) => {
                sessions += 1;
                let lent = match lent {
                    "" => WORDS,
                    _ => lent.parse().expect("a number of words"),
                };
                if lent != words {
                    (words, bench) = (lent, Bench::new(lent));
                }
                requests.clear();
                talk(&mut bench, &block.lines, &mut requests)
            }
            ("counts", _) => {
                drawings += 1;
                format!("{COUNTS}\n{}", requests.join("\n"))
            }
            // Held to the example by a test of its own.
            ("c" | "ceilings", _) => continue,
            (kind, of) => {
                drawings += 1;
                let state = bench.allocator().state().expect("a start was made");
                match kind {
                    "arena" => arena(state),
                    "zone" => zone(state, of.parse().expect("a page")),
                    "lists" => lists(state),
                    "holdings" => holdings(state, of.parse().expect("a number of groups")),
                    _ => panic!("a block of no kind: {kind:?}"),
                }
            }
        };
        assert_eq!(
            told, stands,
            "\nThe document has:\n{told}\n\nIt should have:\n{stands}\n"
        );
    }
    (sessions, drawings)
}

/// The typed lines of a block, each with what the second program answers behind it. The requests among them are kept with their
/// counts, which no line shows.
fn talk(bench: &mut Bench, lines: &[&str], requests: &mut Vec<String>) -> String {
    let mut text = String::new();
    for typed in lines.iter().filter_map(|line| line.strip_prefix(TYPED)) {
        requests.extend(counted(bench, typed));
        let mut answer = Vec::new();
        let fed = bench.feed(format!("{typed}\n").as_bytes(), &mut answer);
        fed.expect("memory takes every byte");
        text.push_str(&format!("{TYPED}{typed}\n"));
        text.push_str(&String::from_utf8(answer).expect("answers are ASCII"));
    }
    text.trim_end().to_string()
}

/// A typed request with its answer and its count, as the example in C prints it.
fn counted(bench: &Bench, typed: &str) -> Option<String> {
    let call = parse(typed.as_bytes())?;
    let (group, size) = match call {
        Call::Allocate { group, size } => (group, size),
        _ => return None,
    };
    let answer = bench.allocator().clone().serve(call);
    let looked = answer.looked().expect("a request has a count");
    let told = render(&answer);
    Some(format!(
        "{group:>5}{size:>7}  {:<10}{looked:>14}",
        told.trim_end()
    ))
}

/// The same requests in the same order, with the same answers and counts.
#[test]
fn the_example_in_c_prints_the_counts_of_the_guide() {
    let blocks = blocks(GUIDE).into_iter();
    let told: Vec<&str> = blocks
        .filter(|block| block.kind == "counts")
        .flat_map(|block| block.lines)
        .collect();
    let lines = TIMING.lines();
    let printed = lines.filter(|line| *line == COUNTS || line.starts_with(' '));
    assert_eq!(told, printed.collect::<Vec<&str>>());
    assert!(told.len() >= 12, "{} lines", told.len());
}

/// The same tables in the same order; the example's have all groups, and those that the guide leaves out have zeros.
#[test]
fn the_example_in_c_prints_the_holdings_of_the_guide() {
    let lines: Vec<&str> = HOLDINGS.lines().collect();
    let mut tables = lines.split(|line| *line == RECORDS).skip(1);
    let mut told = 0;
    for block in blocks(GUIDE) {
        if !block.kind.starts_with("holdings") {
            continue;
        }
        let rows = tables.next().expect("a table for each of the guide's");
        let (shown, others) = rows[..12].split_at(block.lines.len() - 1);
        assert_eq!(block.lines[0], RECORDS);
        assert_eq!(block.lines[1..], *shown);
        assert!(others.iter().all(|row| row.ends_with(NOTHING)));
        told += 1;
    }
    assert!(told >= 3, "{told} tables");
}

/// The guide's blocks of a kind, each as whole lines.
fn shown(kind: &str) -> Vec<String> {
    let of_kind = blocks(GUIDE).into_iter().filter(|block| block.kind == kind);
    of_kind.map(|block| block.lines.join("\n") + "\n").collect()
}

/// The bench program has no line that sets a ceiling: what the guide shows of them is what the example prints.
#[test]
fn the_example_in_c_prints_the_ceilings_of_the_guide() {
    let parts = shown("ceilings");
    assert!(parts.len() >= 2, "{} blocks", parts.len());
    for part in parts {
        assert!(CEILINGS.contains(&part), "not printed:\n{part}");
    }
}

/// What the guide shows of C stands in one of the examples, line by line.
#[test]
fn an_example_in_c_has_what_the_guide_shows() {
    let folder = concat!(env!("CARGO_MANIFEST_DIR"), "/../examples");
    let entries = fs::read_dir(folder).expect("the examples' folder");
    let paths = entries.map(|entry| entry.expect("an entry").path());
    let in_c = paths.filter(|path| path.extension().map_or(false, |kind| kind == "c"));
    let examples: Vec<String> = in_c
        .map(|path| fs::read_to_string(path).expect("UTF-8"))
        .collect();
    let parts = shown("c");
    assert!(parts.len() >= 2, "{} blocks", parts.len());
    for part in parts {
        let found = examples.iter().any(|example| example.contains(&part));
        assert!(found, "in no example:\n{part}");
    }
}

#[test]
fn the_bench_program_answers_the_same() {
    let lines = || {
        let blocks = [GUIDE, TEACHER].into_iter().flat_map(blocks);
        let sessions = blocks.filter(|block| block.kind == "session");
        sessions.flat_map(|block| block.lines)
    };
    let typed: String = lines()
        .filter_map(|line| line.strip_prefix(TYPED))
        .map(|line| format!("{line}\n"))
        .collect();
    let told: String = lines()
        .filter(|line| !line.starts_with(TYPED))
        .map(|line| format!("{line}\n"))
        .collect();
    let came = String::from_utf8(answers(typed.as_bytes())).expect("answers are ASCII");
    assert_eq!(came, told);
}

/// The cells of the guide's table that begins with a head.
fn table(head: &str) -> Vec<Vec<String>> {
    let lines = GUIDE.lines().skip_while(|line| !line.starts_with(head));
    let rows = lines.skip(2).take_while(|line| line.starts_with('|'));
    rows.map(|row| {
        let cells = row.trim_matches('|').split('|');
        cells.map(|cell| cell.trim().replace(',', "")).collect()
    })
    .collect()
}

fn number(text: &str) -> u32 {
    text.parse().unwrap_or_else(|_| panic!("a number: {text}"))
}

fn class_of(size: u32) -> u32 {
    match need(size) {
        Need::Chunk { class } => class,
        Need::Pages { .. } => panic!("{size} bytes take no chunk"),
    }
}

#[test]
fn the_table_of_examples_of_sizes() {
    let rows = table("| bytes asked for |");
    assert!(rows.len() >= 5);
    for row in rows {
        let row: Vec<u32> = row.iter().map(|cell| number(cell)).collect();
        let class = class_of(row[0]);
        let (chunk, chunks) = (chunk_size(class), chunk_count(class));
        let left = ZONE_PAGES * PAGE_BYTES - chunk * chunks;
        assert_eq!(row, [row[0], chunk, class, chunks, left]);
    }
}

/// Each row of document 01's table, tried with every size of it: `256–511 | 32 | c/32 + 15`.
#[test]
fn the_table_of_sizes() {
    let rows = table("| size | step |");
    assert_eq!(rows.len(), 7);
    let mut next = 1;
    for row in rows {
        let (first, last) = row[0].split_once('–').expect("two sizes");
        let (first, last, step) = (number(first), number(last), number(&row[1]));
        assert_eq!(first, next, "sizes are left out");
        let mut formula = row[2].split([' ', '/']);
        assert_eq!(
            (formula.next(), formula.next()),
            (Some("c"), Some(row[1].as_str()))
        );
        let added = match (formula.next(), formula.next()) {
            (Some("+"), Some(added)) => i64::from(number(added)),
            (Some("−"), Some(taken)) => -i64::from(number(taken)),
            other => panic!("a formula: {other:?}"),
        };
        for size in first..=last {
            let rounded = (size + step - 1) / step * step;
            let class = i64::from(rounded / step) + added;
            assert_eq!(
                (i64::from(class_of(size)), chunk_size(class_of(size))),
                (class, rounded),
                "{size}"
            );
        }
        next = last + 1;
    }
    assert_eq!(next, 8_192);
}

/// Three columns for each page. What is longer than a page stands in brackets.
fn arena(state: &State) -> String {
    let numbers: String = (0..state.pages).map(|page| format!("{page:>3}")).collect();
    let mut cells = String::new();
    let mut page = 0;
    while page < state.pages {
        let (pages, text) = segment(state, page);
        match text {
            None => cells.push_str(&"  .".repeat(pages as usize)),
            Some(text) => {
                let width = 3 * pages as usize - 2;
                let text = match text.len() > width {
                    true => text.replace("group ", "g"),
                    false => text,
                };
                cells.push_str(&format!("[{text:<width$}]"));
            }
        }
        page += pages;
    }
    format!("page {numbers}\n     {cells}")
}

/// The pages of what begins at a page, and its name if they are not free.
fn segment(state: &State, page: Page) -> (u32, Option<String>) {
    if let Some(block) = state.direct.get(&page) {
        return (block.pages, Some(format!("group {}", block.group)));
    }
    if let Some(zone) = state.zones.get(&page) {
        let name = format!("zone: chunks of {}", zone.chunk_size());
        return (ZONE_PAGES, Some(name));
    }
    let run = state.runs.iter().find(|run| run.start == page);
    (run.expect("every page is covered").pages, None)
}

/// The chunks of a zone that were ever handed out, each with its group.
fn zone(state: &State, start: Page) -> String {
    let zone = &state.zones[&start];
    let (chunks, room, k) = (zone.chunk_count(), zone.chunk_size(), zone.handed_out);
    let class = zone.class;
    let numbers: String = (0..k).map(|chunk| format!("{chunk:>6}")).collect();
    let owners: String = (0..k as usize)
        .map(|chunk| match zone.owners[chunk] {
            Some(group) => format!("{group:>6}"),
            None => format!("{:>6}", "back"),
        })
        .collect();
    let (rest, untouched) = match k < chunks {
        true => (format!("  {k} to {}", chunks - 1), "  untouched"),
        false => (String::new(), ""),
    };
    let chain = match zone.chain.is_empty() {
        true => "empty".to_string(),
        false => joined(&zone.chain),
    };
    format!(
        "zone at page {start}: class {class}, {chunks} chunks of {room} bytes, k = {k}\n\
         chunk{numbers}{rest}\n     {owners}{untouched}\nchain: {chain}"
    )
}

/// The row of a group that holds nothing and never has, but for its number.
const NOTHING: &str = "       0           0         0";

/// What the first so many groups hold; the others are to hold nothing, and never to have.
fn holdings(state: &State, groups: usize) -> String {
    let row = |(group, holding): (usize, &Holding)| {
        let Holding {
            blocks,
            held,
            greatest,
        } = holding;
        format!("\n{:>5}{blocks:>8}{held:>12}{greatest:>10}", group + 1)
    };
    let rows: Vec<String> = state.holdings.iter().enumerate().map(row).collect();
    let (shown, others) = rows.split_at(groups);
    assert!(others.iter().all(|row| row.ends_with(NOTHING)));
    format!("{RECORDS}{}", shown.concat())
}

/// The lists that have a zone, and the empty list.
fn lists(state: &State) -> String {
    let mut text = String::new();
    for (class, list) in state.lists.iter().enumerate() {
        if !list.is_empty() {
            text.push_str(&format!("class {class}: {}\n", named(list)));
        }
    }
    text + &format!("empty list: {}", named(&state.empty))
}

fn named(pages: &VecDeque<Page>) -> String {
    match pages.len() {
        0 => "none".to_string(),
        1 => format!("page {}", joined(pages)),
        _ => format!("pages {}", joined(pages)),
    }
}

fn joined(numbers: &VecDeque<u32>) -> String {
    let numbers: Vec<String> = numbers.iter().map(u32::to_string).collect();
    numbers.join(", ")
}
