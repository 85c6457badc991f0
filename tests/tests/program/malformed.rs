//! Every kind of line that is no call: one `?`, and nothing changed. Each line is given to a program
//! of its own, before the first start and behind one, and as a last line without its LF.

use crate::check_bytes;

/// Lines that are no calls, by the reason.
const MALFORMED: &[(&str, &[&[u8]])] = &[
    ("empty", &[b""]),
    (
        "leading zero",
        &[
            b"s 024",
            b"s 00",
            b"s 01",
            b"q 01 100",
            b"q 1 0100",
            b"r 01 0",
            b"r 2 00",
            b"x 02",
            b"b 00",
            b"b 032768",
            b"s 00000000000000000000000000000000000000000000000000000000000024",
        ],
    ),
    (
        "sign",
        &[
            b"s +24",
            b"s -24",
            b"s -0",
            b"q +1 100",
            b"q 1 -100",
            b"r 2 -0",
            b"x +2",
            b"b -1",
        ],
    ),
    (
        "two spaces",
        &[
            b"s  24",
            b"q  1 100",
            b"q 1  100",
            b"r 2  32768",
            b"x  2",
            b"b  0",
        ],
    ),
    ("leading space", &[b" s 24", b" t", b" p", b" ", b"  "]),
    (
        "trailing space",
        &[
            b"s 24 ",
            b"q 1 100 ",
            b"r 2 32768 ",
            b"x 2 ",
            b"t ",
            b"b 0 ",
            b"p ",
            b"s ",
            b"q 1 ",
        ],
    ),
    ("no space", &[b"s24", b"q1 100", b"q 1100", b"x2", b"b0"]),
    (
        "tab",
        &[b"\t", b"s\t24", b"q 1\t100", b"t\t", b"\tp", b"s 24\t"],
    ),
    (
        "CR",
        &[
            b"\r",
            b"s 24\r",
            b"q 1 100\r",
            b"t\r",
            b"p\r",
            b"x 2\r",
            b"s\r24",
            b"\rt",
        ],
    ),
    (
        "above 4,294,967,295",
        &[
            b"s 4294967296",
            b"s 4294967320",
            b"q 4294967297 100",
            b"q 1 4294967396",
            b"r 4294967298 32768",
            b"r 2 4295000064",
            b"x 4294967298",
            b"b 4294967296",
            b"s 10000000000",
            b"s 18446744073709551640",
            b"s 340282366920938463463374607431768211480",
        ],
    ),
    (
        "unknown letter",
        &[
            b"a", b"a 1", b"y 24", b"o", b"u", b"q1", b"?", b"#", b"# s 24", b"0", b"24", b"1 s",
        ],
    ),
    (
        "capital letter",
        &[
            b"S 24",
            b"Q 1 100",
            b"R 2 32768",
            b"X 2",
            b"T",
            b"B 0",
            b"P",
        ],
    ),
    (
        "too few numbers",
        &[b"s", b"q", b"q 1", b"r", b"r 2", b"x", b"b"],
    ),
    (
        "too many numbers",
        &[
            b"s 24 1",
            b"q 1 100 1",
            b"r 2 32768 1",
            b"x 2 1",
            b"t 1",
            b"b 0 0",
            b"p 1",
            b"p 0",
        ],
    ),
    (
        "more letters",
        &[
            b"ss 24",
            b"tt",
            b"pp",
            b"start 24",
            b"t p",
            b"t;p",
            b"x x",
            b"s 24s",
            b"s a",
        ],
    ),
    (
        "other numbers",
        &[
            b"s 24.0", b"s 0x18", b"s 2e1", b"s 2_4", b"s 1,000", b"s /", b"s :", b"s 2/", b"s 2:",
        ],
    ),
    (
        "NUL",
        &[
            b"\0",
            b"t\0",
            b"\0t",
            b"p\0",
            b"s 24\0",
            b"s\x0024",
            b"s 2\x004",
            b"x 2\0\0",
        ],
    ),
    (
        "above 127",
        &[
            b"\xff",
            b"t\xff",
            b"\x80p",
            b"\xf4",
            b"\xefs 24",
            b"\xef\xbb\xbfs 24",
            b"s 2\xc3\xa9",
            b"s\xa024",
            b"s \xb2\xb4",
            b"s \xd9\xa2\xd9\xa4",
        ],
    ),
];

/// Lines after which there is something to change, and their answers. Each malformed line would be
/// a call that changes it, if its fault were overlooked.
const SETTING: &[u8] = b"s 24\nq 1 100\nq 2 9000\nq 3 8191\nr 1 0\n";
const SETTING_ANSWERS: &str = "ok\nat 0\nat 32768\nat 45056\nok\n";

/// Lines that show what stands after it.
const SHOWN: &[u8] = b"p\nb 32768\nq 1 100\n";
const SHOWN_ANSWERS: &str =
    "runs 1\n19 5\ndirect 1\n8 3 2\nzones 2\n0 12 0\n11 63 1\n2 12288\nat 104\n";

fn shown(reason: &str, line: &[u8]) -> String {
    format!("{reason}: {:?}", String::from_utf8_lossy(line))
}

/// One mark for this line, wherever it stands.
fn check_mark(reason: &str, line: &[u8]) {
    let name = shown(reason, line);
    let input = [b"p\n", line, b"\n", SETTING, line, b"\n", SHOWN, line].concat();
    // A last line without a byte is none.
    let last = if line.is_empty() { "" } else { "?\n" };
    let answers = format!("no 3\n?\n{SETTING_ANSWERS}?\n{SHOWN_ANSWERS}{last}");
    check_bytes(&input, &answers, &name);
}

#[test]
fn malformed_lines() {
    for (reason, lines) in MALFORMED {
        for line in *lines {
            check_mark(reason, line);
        }
    }
}

#[test]
fn lines_of_64_bytes_and_more() {
    let beginnings: [&[u8]; 5] = [b"t", b"s 24", b"q 1 1", b"x 2 ", b"\0"];
    for beginning in beginnings {
        for length in [24, 63, 64, 65, 66, 127, 128, 129, 130, 4_096] {
            for filled_with in [b'0', b' ', b'\0'] {
                let mut line = beginning.to_vec();
                line.resize(length, filled_with);
                check_mark("long", &line);
            }
        }
    }
}

#[test]
fn a_call_at_the_end_of_a_long_line_is_none() {
    for before in [63, 64, 65, 66, 128, 129, 130, 195, 1_000, 65_536] {
        for call in [&b"t"[..], b"p", b"s 24", b"x 2"] {
            let line = [&vec![b' '; before], call].concat();
            check_mark("call behind many spaces", &line);
        }
    }
}

#[test]
fn a_line_of_many_megabytes() {
    let mut input = vec![b'q'; 20_000_000];
    input.extend(b"\ns 24\n");
    check_bytes(&input, "?\nok\n", "20,000,000 bytes");
    input.truncate(20_000_000);
    check_bytes(&input, "?\n", "20,000,000 bytes and no LF");
}

#[test]
fn the_last_line_counts_if_it_has_a_byte() {
    let cases: [(&[u8], &str); 12] = [
        (b"", ""),
        (b"\n", "?\n"),
        (b"\n\n\n", "?\n?\n?\n"),
        (b"s 24", "ok\n"),
        (b"s 24\n", "ok\n"),
        (b"s 24\nt", "ok\nok 0\n"),
        (b"s 24\nt\n", "ok\nok 0\n"),
        (b"s 24\np", "ok\nruns 1\n0 24\ndirect 0\nzones 0\n"),
        (b"s 24\n\n", "ok\n?\n"),
        (b"s 24\n ", "ok\n?\n"),
        (b"s 24\n\0", "ok\n?\n"),
        (b"s 24\n\r", "ok\n?\n"),
    ];
    for (input, answers) in cases {
        check_bytes(input, answers, &shown("last line", input));
    }
    check_bytes(&[b'\n'; 10_000], &"?\n".repeat(10_000), "only LFs");
}

#[test]
fn every_byte_alone_in_place_of_the_letter_of_the_space_and_of_a_digit() {
    let mut input = Vec::new();
    let mut answers = String::new();
    let mut add = |line: &[u8], answer: &str| {
        input.extend(b"s 24\nq 1 98304\n");
        input.extend(line);
        input.extend(b"\n");
        answers.push_str(&format!("ok\nat 0\n{answer}\n"));
    };
    for byte in (0..=u8::MAX).filter(|byte| *byte != b'\n') {
        let alone = match byte {
            b't' => "ok 0",
            b'p' => "runs 0\ndirect 1\n0 24 1\nzones 0",
            _ => "?",
        };
        let letter = match byte {
            b's' => "ok",
            b'x' => "ok 0",
            b'b' => "no 7",
            _ => "?",
        };
        let letter_of_two = match byte {
            b'q' => "no 6",
            b'r' => "no 7",
            _ => "?",
        };
        let space = match byte {
            b' ' => "ok",
            _ => "?",
        };
        let digit = match byte {
            b'0'..=b'9' => "no 4",
            _ => "?",
        };
        add(&[byte], alone);
        add(&[byte, b' ', b'8'], letter);
        add(&[byte, b' ', b'8', b' ', b'8'], letter_of_two);
        add(&[b's', byte, b'8'], space);
        add(&[b'x', b' ', b'9', byte], digit);
    }
    check_bytes(&input, &answers, "every byte");
}
