//! The manufacturing block of one image, asked of both sides: every number as the Rust decodes it, and the missing offset where it refuses.
//!
//! Three things are held against a reckoning of the judge's own, by document 02's request 2026-02. The Rust has no strict mode. It pads a part
//! number with more than spaces and takes no byte above 127 in one. And of an image that ends within the part number it names another offset.
//! For the last two the Rust is held to just that, as docs/DIFFERENCES.md lists it.

use crate::compare::{Question, STAY, list, refusal};
use crate::images::{BLOCK, DATE, PART, Rng};
use crate::ours::{self, MANUFACTURING_COUNT, PART_NUMBER_MAX, STATE_SIZE};
use spdr::{DecodeError, Manufacturing};

/// What asks for the strict mode: any number but 0.
pub const STRICT: [u32; 6] = [1, 2, 256, 65_536, 0x8000_0000, u32::MAX];

/// How a block compared: alike, or by a row of docs/DIFFERENCES.md, which is then checked to be that row.
#[derive(Clone, Copy, PartialEq)]
pub enum Verdict {
    Same,
    /// The image ends within the part number, and the Rust names the last byte of it.
    PartCut,
    /// The Rust refuses the part number.
    NotAscii,
    /// The Rust takes zero bytes behind the part number off as well.
    ZeroPadded,
}

/// The calls of the block, of an image or of a state.
pub struct Questions {
    numbers: fn(&[u8], u32, &mut [u32]) -> i32,
    part: Question<u8>,
}

pub const OF_IMAGE: Questions = Questions { numbers: ours::manufacturing, part: ours::part_number };
pub const OF_STATE: Questions = Questions { numbers: ours::pieces_manufacturing, part: ours::pieces_part_number };

/// All that the library says of a block. The lists are longer than they need be: what is behind must stay too.
#[derive(Clone, Copy, PartialEq)]
pub struct Answers {
    words: [i32; 3],
    plain: [u32; MANUFACTURING_COUNT + 2],
    strict: [u32; MANUFACTURING_COUNT + 2],
    part: [u8; PART_NUMBER_MAX + 2],
}

impl Answers {
    #[inline(always)]
    pub fn of(from: &[u8], ask: &Questions, strict: u32) -> Self {
        let mut a = Answers {
            words: [0; 3],
            plain: [STAY.into(); MANUFACTURING_COUNT + 2],
            strict: [STAY.into(); MANUFACTURING_COUNT + 2],
            part: [STAY; PART_NUMBER_MAX + 2],
        };
        a.words =
            [(ask.numbers)(from, 0, &mut a.plain), (ask.numbers)(from, strict, &mut a.strict), (ask.part)(from, &mut a.part)];
        a
    }

    /// How long the part number is, none where the block is refused; and whether the strict mode takes the date.
    pub fn outline(&self) -> (Option<usize>, bool) {
        (usize::try_from(self.words[2]).ok(), self.words[1] >= 0)
    }
}

/// Compares the block of one image; the text of an error is the first item that differs.
pub fn compare(image: &[u8], ours: &Answers) -> Result<Verdict, String> {
    let (verdict, numbers) = expected(image)?;
    let plain = numbers.as_ref().map(|l| &l[..]).map_err(|&word| word);
    list("manufacturing", ours.words[0], &ours.plain, plain)?;
    let strict = plain.and_then(|l| if strict_date(&image[DATE]) { Ok(l) } else { Err(refusal(13, 0, 0)) });
    list("manufacturing, strict", ours.words[1], &ours.strict, strict)?;
    list("part number", ours.words[2], &ours.part, plain.map(|_| part_number(image)))?;
    Ok(verdict)
}

/// What document 02 makes of the Rust's block, and by which row the two differ.
fn expected(image: &[u8]) -> Result<(Verdict, Result<[u32; MANUFACTURING_COUNT], i32>), String> {
    let missing = lacks(image.len());
    let short = |offset: usize| Err(refusal(1, offset as i32, 0));
    match (spdr::decode_manufacturing(image), missing) {
        (Ok(m), None) => Ok((compare_part(image, &m)?, Ok(numbers(image, &m)))),
        (Err(DecodeError::Truncated { offset, .. }), Some(first)) if offset == named(first) => {
            Ok((if offset == first { Verdict::Same } else { Verdict::PartCut }, short(first)))
        }
        (Err(DecodeError::NonAscii { offset, .. }), _) if first_high(image) == Some(offset) => {
            Ok((Verdict::NotAscii, missing.map_or_else(|| in_ascii(image), short)))
        }
        (rust, _) => Err(format!("manufacturing: the Rust answers {rust:?}, of which nothing is listed")),
    }
}

/// The smallest offset of the block that an image of this length lacks.
fn lacks(len: usize) -> Option<usize> {
    BLOCK.into_iter().find(|&offset| offset >= len)
}

/// The offset that the Rust names where this one is the first that is missing: it takes the part number as a whole.
fn named(first: usize) -> usize {
    if PART.contains(&first) { PART.end - 1 } else { first }
}

/// The first byte of the part number that is not ASCII.
fn first_high(image: &[u8]) -> Option<usize> {
    PART.into_iter().find(|&offset| image.get(offset).is_some_and(|&b| b >= 0x80))
}

/// The numbers of a block whose part number the Rust refuses: it is asked again, of a part number in ASCII.
fn in_ascii(image: &[u8]) -> Result<[u32; MANUFACTURING_COUNT], i32> {
    let mut copy = [0; BLOCK.end];
    copy.copy_from_slice(&image[..BLOCK.end]);
    copy[PART].fill(b'?');
    spdr::decode_manufacturing(&copy).map(|m| numbers(image, &m)).map_err(|_| refusal(255, 0, 0))
}

fn numbers(image: &[u8], m: &Manufacturing) -> [u32; MANUFACTURING_COUNT] {
    [
        m.module_manufacturer.bank.into(),
        m.module_manufacturer.code.into(),
        m.manufacturing_location.into(),
        m.manufacturing_date.year.into(),
        m.manufacturing_date.week.into(),
        m.serial_number.0,
        m.revision_code.into(),
        m.dram_manufacturer.bank.into(),
        m.dram_manufacturer.code.into(),
        m.dram_stepping.into(),
        part_number(image).len() as u32,
    ]
}

/// Document 02's part number: without the spaces that end it.
fn part_number(image: &[u8]) -> &[u8] {
    without(&image[PART], b" ")
}

/// The Rust's part number is without spaces and zero bytes.
fn compare_part(image: &[u8], m: &Manufacturing) -> Result<Verdict, String> {
    let theirs = without(&image[PART], b" \0");
    if m.part_number.as_bytes() != theirs {
        return Err(format!("manufacturing: the Rust's part number is {:?}, of which nothing is listed", m.part_number));
    }
    Ok(if theirs == part_number(image) { Verdict::Same } else { Verdict::ZeroPadded })
}

/// A field without the bytes that pad its end.
fn without<'a>(field: &'a [u8], pads: &[u8]) -> &'a [u8] {
    let end = field.iter().rposition(|b| !pads.contains(b)).map_or(0, |last| last + 1);
    &field[..end]
}

/// Document 02's strict mode. Of two decimal digits a byte is written in hexadecimal as its number is in decimal.
fn strict_date(date: &[u8]) -> bool {
    let digits = |b: u8| b >> 4 < 10 && b & 15 < 10;
    date.iter().all(|&b| digits(b)) && (0x01..=0x53).contains(&date[1])
}

/// A list or a state that has too few places is refused 4 before all else, and the list stays.
pub fn too_short(image: &[u8], state: &[u8], strict: u32, rng: &mut Rng) -> Result<(), String> {
    let mut numbers = [u32::from(STAY); MANUFACTURING_COUNT];
    let mut part = [STAY; PART_NUMBER_MAX];
    let (few, fewer, cut) = (rng.below(MANUFACTURING_COUNT), rng.below(PART_NUMBER_MAX), rng.below(STATE_SIZE));
    let words = [
        ours::manufacturing(image, strict, &mut numbers[..few]),
        ours::part_number(image, &mut part[..fewer]),
        ours::pieces_manufacturing(state, strict, &mut numbers[..few]),
        ours::pieces_part_number(state, &mut part[..fewer]),
        ours::pieces_manufacturing(&state[..cut], strict, &mut numbers),
        ours::pieces_part_number(&state[..cut], &mut part),
    ];
    if words.iter().any(|&word| word != refusal(4, 0, 0)) {
        return Err(format!("manufacturing: lists of {few} and {fewer} places, then a state of {cut}: answers {words:?}"));
    }
    if numbers.iter().any(|&n| n != STAY.into()) || part.iter().any(|&b| b != STAY) {
        return Err(format!("manufacturing: a list that was refused for its {few} or {fewer} places was written"));
    }
    Ok(())
}
