//! The grammar of the bench program's lines: every kind of line that is no
//! call.

mod common;

use common::{bench, bench_bytes};
use reference::bench::{Bench, WORDS};
use reference::calls::Call;
use reference::lines::{decimal, line_of, parse};

/// Lines that are no calls, each for a reason of its own.
const MALFORMED: &[&[u8]] = &[
    b"",
    b" ",
    b"\t",
    b"\0",
    b"\r",
    b"?",
    b"0",
    b"24",
    // Letters that are none, or too many of them.
    b"a",
    b"start 24",
    b"ss 24",
    b"tt",
    b"pp",
    b"t p",
    b"t;p",
    b"# s 24",
    // Upper case.
    b"S 24",
    b"Q 1 100",
    b"R 1 0",
    b"X 1",
    b"T",
    b"B 0",
    b"P",
    // Spaces: two, leading, trailing, none.
    b"s  24",
    b"q  1 100",
    b"q 1  100",
    b" s 24",
    b" t",
    b"s 24 ",
    b"t ",
    b"p ",
    b"q 1 100 ",
    b"s24",
    b"q1 100",
    b"q 1100",
    b"x1",
    // Other bytes in place of the space, or at the end.
    b"s\t24",
    b"q 1\t100",
    b"s 24\r",
    b"t\r",
    b"p\0",
    b"s\x0024",
    b"s 24\t",
    b"s\xa024",
    // Bytes above 127, a byte order mark, digits that aren't ASCII.
    b"\xff",
    b"t\xff",
    b"\xefs 24",
    b"\xef\xbb\xbfs 24",
    b"s 2\xc3\xa9",
    b"s \xd9\xa2\xd9\xa4",
    // Signs, leading zeros, other ways to write a number.
    b"s +24",
    b"s -24",
    b"s -0",
    b"s 024",
    b"s 00",
    b"q 01 100",
    b"q 1 0100",
    b"r 1 00",
    b"s 24.0",
    b"s 0x18",
    b"s 2e1",
    b"s 2_4",
    b"s 1,000",
    b"b -1",
    // Too few or too many numbers.
    b"s",
    b"q 1",
    b"q",
    b"r 1",
    b"x",
    b"s 24 1",
    b"q 1 100 1",
    b"r 1 0 0",
    b"x 1 1",
    b"t 1",
    b"b",
    b"b 0 0",
    b"p 1",
];

/// Numbers above 4,294,967,295, some of them small again modulo a power of 2.
const TOO_BIG: [&str; 6] = [
    "4294967296",
    "4294967400",
    "10000000000",
    "99999999999999999999",
    "18446744073709551720",
    "340282366920938463463374607431768211480",
];

/// Lines after which there is a state that can be changed.
const SETTING: &str = "s 24\nq 1 100\nq 2 9000\nq 3 8191\nr 1 0\n";

#[test]
fn malformed_lines_write_a_question_mark_and_change_nothing() {
    for line in MALFORMED {
        let shown = String::from_utf8_lossy(line);
        let mut bench = Bench::new(WORDS);
        bench.feed(SETTING.as_bytes(), &mut Vec::new()).unwrap();
        let before = bench.allocator().clone();
        let mut output = Vec::new();
        bench.feed(line, &mut output).unwrap();
        bench.feed(b"\n", &mut output).unwrap();
        assert_eq!(output, b"?\n", "{shown:?}");
        assert_eq!(*bench.allocator(), before, "{shown:?}");
    }
}

#[test]
fn malformed_lines_before_the_first_start_are_not_refused() {
    for line in MALFORMED {
        let script = [line, &b"\n"[..]].concat();
        let shown = String::from_utf8_lossy(line);
        assert_eq!(bench_bytes(&script), b"?\n", "{shown:?}");
    }
}

#[test]
fn numbers_above_32_bits_are_malformed() {
    for number in TOO_BIG {
        let kinds = ["s #", "q # 8", "q 1 #", "r # 0", "r 1 #", "x #", "b #"];
        for kind in kinds {
            let line = kind.replace('#', number);
            let output = bench(&format!("s 24\n{line}\n"));
            assert_eq!(output, "ok\n?\n", "{line}");
        }
    }
}

#[test]
fn decimals() {
    let numbers = [
        ("0", 0),
        ("1", 1),
        ("9", 9),
        ("10", 10),
        ("4294967295", u32::MAX),
    ];
    for (digits, value) in numbers {
        assert_eq!(decimal(digits.as_bytes()), Some(value));
    }
    for digits in ["", "00", "01", "+1", "-1", "1 ", "1a", "/", ":"] {
        assert_eq!(decimal(digits.as_bytes()), None, "{digits:?}");
    }
    for digits in TOO_BIG {
        assert_eq!(decimal(digits.as_bytes()), None, "{digits:?}");
    }
}

#[test]
fn calls_and_their_lines() {
    let calls = [
        ("s 24", Call::Init { pages: 24 }),
        (
            "q 1 100",
            Call::Allocate {
                group: 1,
                size: 100,
            },
        ),
        (
            "r 2 0",
            Call::Free {
                group: 2,
                offset: 0,
            },
        ),
        ("x 12", Call::Reset { group: 12 }),
        ("t", Call::Trim),
        ("b 104", Call::Query { offset: 104 }),
        ("p", Call::Listing { capacity: 2_220 }),
    ];
    for (line, call) in calls {
        assert_eq!(parse(line.as_bytes()), Some(call));
        assert_eq!(line_of(&call).as_deref(), Some(line));
    }
    // No line asks for the holdings or sets a ceiling.
    assert_eq!(line_of(&Call::Holdings { records: 12 }), None);
    let (group, bytes) = (1, 100);
    assert_eq!(line_of(&Call::SetCeiling { group, bytes }), None);
}

#[test]
fn long_lines_are_one_question_mark() {
    let beginnings: [&[u8]; 4] = [b"t", b"s 24 ", b"q 1 1", b"\0"];
    for beginning in beginnings {
        for length in [63, 64, 65, 66, 129, 4_096, 1_000_000] {
            let mut line = beginning.to_vec();
            line.resize(length, b'0');
            line.extend(b"\ns 24\n");
            assert_eq!(bench_bytes(&line), b"?\nok\n", "{length} bytes");
        }
    }
}

#[test]
fn a_long_line_does_not_hide_a_call_in_its_beginning_or_end() {
    // 65 bytes of which the first or the last are a call.
    for line in [
        format!("t{}", " ".repeat(64)),
        format!("{}t", " ".repeat(64)),
        format!("{}s 24", "0".repeat(61)),
        format!("s 24{}", "\0".repeat(61)),
    ] {
        assert_eq!(line.len(), 65);
        assert_eq!(bench(&format!("{line}\nt\n")), "?\nno 3\n");
    }
}

#[test]
fn a_last_line_without_its_end_counts_if_it_has_a_byte() {
    assert_eq!(bench(""), "");
    assert_eq!(bench("s 24"), "ok\n");
    assert_eq!(bench("s 24\n"), "ok\n");
    assert_eq!(bench("s 24\nt"), "ok\nok 0\n");
    assert_eq!(bench("s 24\n\n"), "ok\n?\n");
    assert_eq!(bench("\n"), "?\n");
    assert_eq!(bench("s 24\n "), "ok\n?\n");
    assert_eq!(bench("s 24\n\0"), "ok\n?\n");
    let long = format!("s 24\n{}", "t".repeat(70));
    assert_eq!(bench(&long), "ok\n?\n");
}

#[test]
fn every_single_byte_is_answered() {
    for byte in 0..=u8::MAX {
        let expected: &[u8] = match byte {
            b'\n' => b"?\n?\n",
            b't' => b"no 3\n",
            b'p' => b"no 3\n",
            _ => b"?\n",
        };
        assert_eq!(bench_bytes(&[byte, b'\n']), expected, "byte {byte}");
    }
}

#[test]
fn every_byte_in_place_of_the_space() {
    for byte in (0..=u8::MAX).filter(|&byte| byte != b'\n') {
        let expected: &[u8] = if byte == b' ' { b"ok\n" } else { b"?\n" };
        let line = [b's', byte, b'2', b'4', b'\n'];
        assert_eq!(bench_bytes(&line), expected, "byte {byte}");
    }
}
