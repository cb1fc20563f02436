//! The base CRC of one image, asked of both sides: whether it fits, and the missing offset where the image is too short. Of an image that ends before
//! byte 509 the Rust names another offset, and is held to just that, as docs/DIFFERENCES.md lists it.
//!
//! Few images have a CRC that fits. So every one is copied with the CRC that the Rust reckons of it: that one must fit, and it must not with one of its
//! bits changed, or with its two bytes exchanged. Of two reads the Rust knows nothing: there document 02's request 2026-03 is held against the Rust's
//! verdict on each.

use crate::compare::refusal;
use crate::images::{Rng, STORED_CRC, put16};
use crate::ours::{self, STATE_SIZE};
use spdr::{CrcStatus, DecodeError};

/// The bytes that the check needs.
pub const NEEDS: usize = 512;

/// How an image compared: alike, or by a row of docs/DIFFERENCES.md, which is then checked to be that row.
#[derive(Clone, Copy, PartialEq)]
pub enum Verdict {
    Same,
    /// The image ends before the last byte that is covered, and the Rust names that one.
    CoveredCut,
}

/// Which of two reads are sound.
#[derive(Clone, Copy, PartialEq)]
pub enum Sound {
    Both,
    First,
    Second,
    Neither,
}

/// What is made of an image: it with the CRC that the Rust reckons, if it is long enough for one; and a second read.
#[derive(Default)]
pub struct Copies {
    sealed: Vec<u8>,
    second: Vec<u8>,
}

/// Compares the CRC of one image, and of one in four beside a second read; the text of an error is the first item that differs.
pub fn compare(image: &[u8], word: i32, copies: &mut Copies, rng: &mut Rng) -> Result<(Verdict, Option<Sound>), String> {
    let (verdict, status) = expected(image)?;
    answer("CRC", word, status.map_or_else(|word| word, |s| s.matches.into()))?;
    copies.sealed.clear();
    copies.sealed.extend_from_slice(image);
    if let Ok(status) = status {
        seal(&mut copies.sealed, status.computed, rng)?;
    }
    let asked = rng.below(4) == 0;
    Ok((verdict, if asked { Some(two_reads(image, copies, rng)?) } else { None }))
}

fn answer(what: &str, word: i32, wanted: i32) -> Result<(), String> {
    if word == wanted { Ok(()) } else { Err(format!("{what}: answer {word}, should be {wanted}")) }
}

/// What document 02 makes of the Rust's verdict, and by which row the two differ.
fn expected(image: &[u8]) -> Result<(Verdict, Result<CrcStatus, i32>), String> {
    let first = image.len();
    match spdr::verify_base_crc(image) {
        Ok(status) if first >= NEEDS => Ok((Verdict::Same, Ok(status))),
        Err(DecodeError::Truncated { offset, .. }) if first < NEEDS && offset == named(first) => {
            Ok((if offset == first { Verdict::Same } else { Verdict::CoveredCut }, Err(refusal(1, first as i32, 0))))
        }
        rust => Err(format!("CRC: the Rust answers {rust:?}, of which nothing is listed")),
    }
}

/// The offset that the Rust names where this one is the first that is missing: it takes the covered bytes as a whole.
fn named(first: usize) -> usize {
    first.max(STORED_CRC - 1)
}

/// Puts the right CRC in, after two that are wrong.
fn seal(copy: &mut [u8], crc: u16, rng: &mut Rng) -> Result<(), String> {
    let turned = crc.swap_bytes();
    let stored = [
        ("CRC with a bit changed", crc ^ 1 << rng.below(16), false),
        ("CRC with its bytes exchanged", turned, turned == crc),
        ("CRC as the Rust reckons it", crc, true),
    ];
    for (what, stored, fits) in stored {
        put16(copy, STORED_CRC, stored);
        answer(what, ours::crc(copy), fits.into())?;
    }
    Ok(())
}

/// Two reads, each the image, it with the right CRC, that cut, or nothing: the first that the Rust takes for sound is the answer.
fn two_reads(image: &[u8], copies: &mut Copies, rng: &mut Rng) -> Result<Sound, String> {
    let Copies { sealed, second } = copies;
    // A copy, since no two lent buffers may overlap.
    second.clear();
    second.extend_from_slice(some_read(image, sealed, rng));
    let first = some_read(image, sealed, rng);
    let sound = |read| spdr::verify_base_crc(read).is_ok_and(|s| s.matches);
    let (sound, wanted) = match (sound(first), sound(second)) {
        (true, true) => (Sound::Both, 1),
        (true, false) => (Sound::First, 1),
        (false, true) => (Sound::Second, 2),
        (false, false) => (Sound::Neither, refusal(21, 0, 0)),
    };
    let word = ours::sound_read(first, second);
    if word != wanted {
        return Err(format!("reads of {} and {} bytes: answer {word}, should be {wanted}", first.len(), second.len()));
    }
    Ok(sound)
}

fn some_read<'a>(image: &'a [u8], sealed: &'a [u8], rng: &mut Rng) -> &'a [u8] {
    let most = match rng.below(8) {
        0..2 => return image,
        2..4 => sealed.len(),
        4 => NEEDS,
        5 => NEEDS - 1,
        6 => rng.below(NEEDS),
        _ => 0,
    };
    &sealed[..most.min(sealed.len())]
}

/// A state that has too few bytes is refused 4 before all else.
pub fn too_short(state: &[u8], rng: &mut Rng) -> Result<(), String> {
    let cut = rng.below(STATE_SIZE);
    let words = [ours::pieces_crc(&state[..cut]), ours::pieces_crc(&state[..STATE_SIZE - 1])];
    if words.iter().any(|&word| word != refusal(4, 0, 0)) {
        return Err(format!("CRC: states of {cut} and {} bytes: answers {words:?}", STATE_SIZE - 1));
    }
    Ok(())
}
