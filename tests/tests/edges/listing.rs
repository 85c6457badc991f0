//! The listing's buffer: one byte short, exactly long enough, longer. That all other bytes stay is
//! seen to at every listing.

use reference::listing::LONGEST;
use reference::state::State;
use tests::calls::listing;
use tests::layout::{encode, used_words};
use tests::pair::Pair;
use tests::states::{of_all_kinds, reached, zones_throughout, Plan};
use tests::zones::zone_with;

#[test]
fn a_buffer_one_byte_short_is_refused_by_12() {
    for state in of_all_kinds() {
        let mut pair = Pair::over(encode(&state));
        let length = pair.text().len();
        assert_eq!(pair.listing(length - 1), Err(12));
        for capacity in [0, 1, 6, 7, length / 2] {
            assert_eq!(pair.listing(capacity), Err(12));
        }
    }
}

#[test]
fn a_buffer_exactly_long_enough_is_served() {
    for state in of_all_kinds() {
        let mut pair = Pair::over(encode(&state));
        let text = pair.text();
        assert_eq!(pair.listing(text.len()), Ok(text));
    }
}

#[test]
fn a_longer_buffer_keeps_its_later_bytes() {
    for state in of_all_kinds() {
        let mut pair = Pair::over(encode(&state));
        let text = pair.text();
        for more in [1, 2, 64, 10_000] {
            assert_eq!(pair.listing(text.len() + more), Ok(text.clone()));
        }
    }
}

/// The same by hand, with bytes behind that a listing could have.
#[test]
fn the_bytes_behind_the_text_stay_whatever_they_are() {
    let mut words = encode(&State::fresh(32));
    for blank in [0, b'0', b'\n', 0xff] {
        let mut text = [blank; 40];
        let expected = b"runs 1\n0 32\ndirect 0\nzones 0\n";
        assert_eq!(listing(&mut words, &mut text), Ok(expected.len()));
        assert_eq!(text[..expected.len()], expected[..]);
        assert_eq!(text[expected.len()..], [blank; 40][expected.len()..]);
    }
}

#[test]
fn a_refused_listing_writes_no_byte_whatever_they_are() {
    let mut words = encode(&State::fresh(32));
    for blank in [0, b'r', b'\n', 0xff] {
        for capacity in 0..29 {
            let mut text = [blank; 40];
            assert_eq!(listing(&mut words, &mut text[..capacity]), Err(12));
            assert_eq!(text, [blank; 40]);
        }
    }
}

#[test]
fn the_longest_listing_has_2220_bytes() {
    let blocks = (0..256).fold(Plan::new(), |plan, _| plan.direct(1, 12));
    let mut pair = Pair::over(encode(&blocks.assemble()));
    assert_eq!(pair.listing(2_219), Err(12));
    let text = pair.listing(2_220).expect("long enough");
    assert!(text.starts_with("runs 0\ndirect 256\n0 1 12\n1 1 12\n"));
    assert!(text.ends_with("254 1 12\n255 1 12\nzones 0\n"));
}

#[test]
fn the_most_runs_and_the_most_zones_are_listed() {
    let runs = (0..128).fold(Plan::new(), |plan, _| plan.run(1).direct(1, 9));
    let text = Pair::over(encode(&runs.assemble())).text();
    assert!(text.starts_with("runs 128\n0 1\n2 1\n"));
    let zones = zones_throughout(256, &zone_with(0, &[true; 4_096]));
    let text = Pair::over(encode(&zones)).text();
    assert!(text.starts_with("runs 0\ndirect 0\nzones 32\n0 0 4096\n8 0 4096\n"));
}

#[test]
fn without_a_state_a_listing_is_refused_by_3_before_12() {
    for mut pair in [Pair::zeroed(used_words(24)), Pair::noisy(used_words(24))] {
        for capacity in [0, 1, LONGEST] {
            assert_eq!(pair.listing(capacity), Err(3));
        }
    }
}

#[test]
fn a_refused_listing_can_be_repeated() {
    let mut pair = Pair::over(encode(&reached(32, 300, 1)));
    for _ in 0..3 {
        assert_eq!(pair.listing(10), Err(12));
    }
}
