//! Damage with an aim: several words changed together, so that what comes out is another legal
//! state, or misses one by a single condition. Changes of one word seldom get that far.
//!
//! Each operation is told nothing of what it leads to; the decoder says that afterwards. One that
//! does not apply to a subject changes nothing. Those on pages and zones leave the groups' figures as
//! they are: these are made to agree afterwards, or not ([`crate::damage`]).

mod figures;
mod lists;
mod pages;
mod zones;

use crate::edits::any_edit;
use crate::figures::settle;
use crate::subject::Subject;
use reference::histories::Xorshift;

/// An operation on a subject's words.
type Operation = fn(&mut Subject, &mut Xorshift);

const ON_FIGURES: [Operation; 5] = [
    figures::move_block,
    figures::swap_groups,
    figures::set_greatest,
    figures::set_ceiling,
    figures::forget_room,
];

const OPERATIONS: [Operation; 27] = [
    pages::cut_run,
    pages::cut_block,
    pages::cut_run_for_block,
    pages::give_run_out,
    pages::give_block_back,
    pages::lengthen_arena,
    pages::shorten_arena,
    pages::turn_pages_to_zone,
    zones::hand_out_next,
    zones::return_chunk,
    zones::grant_last,
    zones::grant_inside_chain,
    zones::lose_chunk,
    zones::position_twice,
    zones::same_position,
    zones::entry_past_chain,
    zones::entry_of_another,
    zones::cross_positions,
    zones::chain_untouched,
    zones::forget_chain,
    zones::change_class,
    lists::reorder,
    lists::drop_entry,
    lists::repeat_entry,
    lists::leave_gap,
    lists::list_zone,
    lists::move_to_empty,
];

/// One operation, or two after each other; at times with one on the figures, or with a damage of the
/// plain kind.
pub fn operate(subject: &mut Subject, random: &mut Xorshift) {
    random.pick(&OPERATIONS)(subject, random);
    match random.below(10) {
        0..=2 => random.pick(&OPERATIONS)(subject, random),
        3 => any_edit(subject, random),
        4 => {
            settle(subject);
            any_of_figures(subject, random);
        }
        _ => {}
    }
}

/// One operation on the figures or the ceilings.
pub fn any_of_figures(subject: &mut Subject, random: &mut Xorshift) {
    random.pick(&ON_FIGURES)(subject, random);
}
