//! States that no script of a reasonable length reaches.

use reference::state::Zone;
use tests::calls::Requested;
use tests::layout::encode;
use tests::pair::Pair;
use tests::states::{zones_throughout, Plan};
use tests::zones::zone_with;

/// A request that is granted, with its count of runs.
fn at(offset: u32, looked: u32) -> Requested {
    Requested {
        outcome: Ok(offset),
        looked,
    }
}

/// One that is refused for want of pages.
fn no_room(looked: u32) -> Requested {
    Requested {
        outcome: Err(6),
        looked,
    }
}

#[test]
fn the_fullest_arena_of_chunks_is_reset_at_once() {
    let full = zones_throughout(256, &zone_with(0, &[true; 4_096]));
    let mut pair = Pair::over(encode(&full));
    assert_eq!(pair.request(2, 8), no_room(0));
    assert_eq!(pair.reset(2), Ok(0));
    assert_eq!(pair.reset(1), Ok(131_072));
    assert_eq!(pair.state().zones.len(), 3);
    assert_eq!(pair.trim(), Ok(3));
    assert_eq!(pair.text(), "runs 1\n0 256\ndirect 0\nzones 0\n");
}

/// 32 zones, of several classes and none of them full: every place of the class lists is taken.
#[test]
fn with_32_entries_on_the_class_lists_every_call_is_served() {
    let zones = (0..32).fold(Plan::new(), |plan, at| {
        plan.zone(zone_with(at % 5 * 14, &[true, false, true]))
    });
    let mut pair = Pair::over(encode(&zones.assemble()));
    let rooms = [8, 120, 416, 1_408, 4_608];
    for size in rooms.into_iter().chain(rooms) {
        let offset = pair.allocate(9, size).expect("each list has a zone");
        assert_eq!(pair.query(offset), Ok((9, size)));
    }
    assert_eq!(pair.request(9, 16), no_room(0));
    assert_eq!(pair.reset(1), Ok(64));
    assert_eq!(pair.reset(9), Ok(10));
    let idle = pair.state().zones.len() as u32;
    assert_eq!(pair.trim(), Ok(idle));
}

/// Two zones with a live chunk, and idle ones wherever a valid state can have them: three on one
/// class's list, one that never granted a chunk on another's, two on the empty list.
fn idle_on_every_list() -> Pair {
    let zones = Plan::new()
        .zone(zone_with(63, &[false]))
        .direct(1, 1)
        .zone(zone_with(63, &[true]))
        .zone(zone_with(63, &[false; 4]))
        .zone(Zone::set_up(12))
        .direct(2, 2)
        .empty_zone(zone_with(0, &[false; 9]))
        .run(1)
        .zone(zone_with(12, &[false, true]))
        .zone(zone_with(63, &[false, false]))
        .empty_zone(Zone::set_up(40))
        .direct(1, 3);
    Pair::over(encode(&zones.assemble()))
}

#[test]
fn a_second_search_gives_back_idle_zones_from_every_list() {
    let mut pair = idle_on_every_list();
    let before = pair.text();
    assert_eq!(pair.request(9, 17 * 4_096), no_room(1 + 4));
    assert_eq!(pair.text(), before);
    assert_eq!(pair.request(9, 16 * 4_096), at(17 * 4_096, 1 + 2));
    assert_eq!(
        pair.text(),
        "runs 3\n0 8\n35 9\n52 16\ndirect 4\n8 1 1\n17 16 9\n33 2 2\n68 1 3\nzones 2\n9 63 1\n44 12 1\n"
    );
    assert_eq!(pair.trim(), Ok(0));
}

/// A board without a live block and without a free page: all zones are idle, and on one list.
#[test]
fn the_whole_arena_is_granted_where_all_its_zones_are_idle() {
    let idle = zones_throughout(256, &zone_with(0, &[false; 4_096]));
    let mut pair = Pair::over(encode(&idle));
    assert_eq!(pair.request(1, 1_048_576), at(0, 1));
    assert_eq!(pair.text(), "runs 0\ndirect 1\n0 256 1\nzones 0\n");
    let mut pair = Pair::over(encode(&idle));
    assert_eq!(pair.request(1, 8_191), at(0, 1));
    assert_eq!(pair.text(), "runs 1\n8 248\ndirect 0\nzones 1\n0 63 1\n");
}

/// Its own class's list has a zone: none of them is given back.
#[test]
fn an_idle_zone_on_the_class_s_list_serves_and_nothing_is_given_back() {
    let idle = zones_throughout(256, &zone_with(0, &[false; 4_096]));
    let mut pair = Pair::over(encode(&idle));
    assert_eq!(pair.request(1, 8), at(4_095 * 8, 0));
    assert_eq!(pair.state().zones.len(), 32);
    assert_eq!(pair.trim(), Ok(31));
}

/// Runs and blocks of one page each by turns: as many runs as there can be, and both searches look at
/// all of them. No call makes blocks of one page.
#[test]
fn a_request_looks_at_twice_half_of_the_pages_at_most() {
    for pages in (1..=33).chain([128, 255, 256]) {
        let by_turns = (0..pages).fold(Plan::new(), |plan, page| match page % 2 {
            0 => plan.run(1),
            _ => plan.direct(1, 1),
        });
        let mut pair = Pair::over(encode(&by_turns.assemble()));
        let most = (pages + 1) / 2;
        assert_eq!(pair.request(2, 8_192), no_room(2 * most), "{pages} pages");
        assert_eq!(pair.request(2, 100), no_room(2 * most), "{pages} pages");
    }
}

/// The last two pages are free as well, and the only ones in a row.
#[test]
fn the_last_of_the_most_runs_is_chosen() {
    for pages in [2, 4, 24, 128, 256] {
        let by_turns = (0..pages / 2 - 1).fold(Plan::new(), |plan, _| plan.run(1).direct(1, 1));
        let mut pair = Pair::over(encode(&by_turns.run(2).assemble()));
        let granted = at((pages - 2) * 4_096, pages / 2);
        assert_eq!(pair.request(2, 8_192), granted, "{pages} pages");
    }
}

/// Idle zones with a block of one page behind each: one run before, and one more for each zone after.
#[test]
fn every_zone_given_back_is_a_run_to_look_at() {
    let zones = (0..28).fold(Plan::new(), |plan, _| {
        plan.zone(zone_with(63, &[false])).direct(1, 1)
    });
    let mut pair = Pair::over(encode(&zones.run(1).direct(2, 1).assemble()));
    assert_eq!(pair.request(2, 9 * 4_096), no_room(1 + 29));
    assert_eq!(pair.state().zones.len(), 28);
    assert_eq!(pair.request(2, 8 * 4_096), at(0, 1 + 1));
    assert_eq!(pair.request(2, 8 * 4_096), at(9 * 4_096, 1));
}
