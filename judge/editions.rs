//! One image under edition 1 of the ladder. The Rust knows edition 2's alone, to which compare.rs holds the library. So edition 1 is held to edition 2, by
//! document 02's request 2026-05: the same flags, the same findings in the same order, and one finding more behind them exactly where the image has
//! a data rate that edition 2 added. The rate is the Rust's.

use crate::compare::{self, Answers, STAY, refusal};
use crate::images::Rng;
use crate::ours::{self, EDITION_1, EDITION_2, REPORT_MAX, STATE_SIZE};

/// The rates that edition 2 has and edition 1 has not.
pub const ADDED: [u32; 6] = [6800, 7200, 7600, 8000, 8400, 8800];

/// Compares the answers under both editions; the text of an error is the first item that differs. Answers the place of the added rate, if the image has one.
pub fn compare(image: &[u8], second: &Answers, first: &Answers) -> Result<Option<usize>, String> {
    let (flags, mut wanted) = compare::findings(second)?;
    let rate = spdr::decode_timings(image).map_or(0, |t| t.base_data_rate_mt_s());
    let added = ADDED.iter().position(|&r| r == rate);
    if added.is_some() {
        wanted.push([7, 0, rate, 0, 0]);
    }
    compare::reported(first, flags, &wanted)?;
    Ok(added)
}

/// A number that is one bit beside an edition is none, and is refused 14 before all else: whether there is room for the report or the state or not. Where
/// the edition is one, too little room is refused 8 or 4. Nothing is written.
pub fn refused(image: &[u8], state: &mut [u8; STATE_SIZE], rng: &mut Rng) -> Result<(), String> {
    let mut report = [STAY; REPORT_MAX];
    let before = *state;
    let edition = rng.pick(&[EDITION_1, EDITION_2]);
    let none = edition ^ 1 << rng.below(32);
    // No report has fewer than five bytes.
    let (room, cut) = (rng.below(5), rng.below(STATE_SIZE));
    let words = [
        ours::lint(image, none, &mut report),
        ours::lint(image, none, &mut report[..room]),
        ours::pieces_fresh(state, none),
        ours::pieces_fresh(&mut state[..cut], none),
        ours::lint(image, edition, &mut report[..room]),
        ours::pieces_fresh(&mut state[..cut], edition),
    ];
    if words != [14, 14, 14, 14, 8, 4].map(|number| refusal(number, 0, 0)) {
        return Err(format!("editions {none}, then {edition}, a report of {room} bytes, a state of {cut}: answers {words:?}"));
    }
    if report != [STAY; REPORT_MAX] || *state != before {
        return Err(format!("editions {none}, then {edition}: a call that was refused wrote its report or its state"));
    }
    Ok(())
}
