//! One image, asked of both sides: every number of both records, the refusals with what they carry, the offset that is missing among
//! it, the CAS list, and every finding in order. Our answers come from the C library, findings under edition 2; the Rust's are put into
//! document 01's numbers here. Edition 1 is compared in editions.rs, the manufacturing block in manufacturing.rs, and the base CRC in crc.rs.
//!
//! The report form has no severity, so the Rust's severity of each finding is held against document 01's for its code; and so is
//! the severity that the library answers when it reads the report back, with all else that the report says. The clock table,
//! which the Rust does not have, is held against document 02's formula over the Rust's times.

use crate::crc;
use crate::editions;
use crate::images::Rng;
use crate::manufacturing;
use crate::numbers::{DEVICE_TYPE, Row, field_number, identity_lacks, identity_numbers, row};
use crate::ours;
use spdr::{DecodeError, Finding, IdentityAndBase, Severity, Timings};

/// What lent lists hold before a call. A refused call must leave it.
pub const STAY: u8 = 0xA5;

/// How an image compared: alike, or by a row of docs/DIFFERENCES.md, which is then checked to be that row.
#[derive(Clone, Copy, PartialEq)]
pub enum Verdict {
    Same,
    ShortImage,
    OtherType,
}

/// Everything the library says of one image, the manufacturing block in both modes; under which edition, and which number asked for the strict one.
#[derive(Clone, Copy, PartialEq)]
pub struct Answers {
    edition: u32,
    words: [i32; 5],
    report: [u8; ours::REPORT_MAX],
    identity: [u32; 18],
    timings: [u32; 30],
    cas: [u16; 40],
    clocks: [u32; 9],
    strict: u32,
    pub block: manufacturing::Answers,
    pub crc: i32,
}

pub type Question<T> = fn(&[u8], &mut [T]) -> i32;

/// The calls that ask one thing of an image or of a state.
struct Questions {
    lint: fn(&[u8], u32, &mut [u8]) -> i32,
    identity: Question<u32>,
    timings: Question<u32>,
    cas: Question<u16>,
    clocks: Question<u32>,
    block: manufacturing::Questions,
    crc: fn(&[u8]) -> i32,
}

const OF_IMAGE: Questions = Questions {
    lint: ours::lint,
    identity: ours::identity,
    timings: ours::timings,
    cas: ours::cas_latencies,
    clocks: ours::clocks,
    block: manufacturing::OF_IMAGE,
    crc: ours::crc,
};

const OF_STATE: Questions = Questions {
    // A state has its edition.
    lint: |state, _, report| ours::pieces_lint(state, report),
    identity: ours::pieces_identity,
    timings: ours::pieces_timings,
    cas: ours::pieces_cas_latencies,
    clocks: ours::pieces_clocks,
    block: manufacturing::OF_STATE,
    crc: ours::pieces_crc,
};

impl Answers {
    /// Under edition 2.
    pub fn of_image(image: &[u8], strict: u32) -> Self {
        Self::of(image, &OF_IMAGE, ours::EDITION_2, strict)
    }

    /// The same under edition 1. Lint alone is asked again: no other call on an image takes an edition.
    pub fn under_edition_1(&self, image: &[u8]) -> Self {
        let mut a = Answers { edition: ours::EDITION_1, report: [STAY; ours::REPORT_MAX], ..*self };
        a.words[0] = ours::lint(image, a.edition, &mut a.report);
        a
    }

    /// The flags of the report and the codes of its findings.
    pub fn outline(&self) -> (u8, impl Iterator<Item = u8>) {
        (self.report[3], self.report[5..].chunks(14).map(|r| r[0]).take(self.report[4].into()))
    }

    #[inline(always)]
    fn of(from: &[u8], ask: &Questions, edition: u32, strict: u32) -> Self {
        let mut a = Answers {
            edition,
            words: [0; 5],
            report: [STAY; ours::REPORT_MAX],
            identity: [STAY.into(); 18],
            timings: [STAY.into(); 30],
            cas: [STAY.into(); 40],
            clocks: [STAY.into(); 9],
            strict,
            block: manufacturing::Answers::of(from, &ask.block, strict),
            crc: (ask.crc)(from),
        };
        a.words = [
            (ask.lint)(from, edition, &mut a.report),
            (ask.identity)(from, &mut a.identity),
            (ask.timings)(from, &mut a.timings),
            (ask.cas)(from, &mut a.cas),
            (ask.clocks)(from, &mut a.clocks),
        ];
        a
    }
}

/// An answer of the C library that is a refusal.
pub const fn refusal(number: i32, first: i32, second: i32) -> i32 {
    -(number + 256 * first + (second << 20))
}

/// Compares one image; the text of an error is the first item that differs.
pub fn compare(image: &[u8], ours: &Answers) -> Result<Verdict, String> {
    let rust = spdr::decode_identity_and_base(image);
    let (verdict, identity) = expected_identity(image, &rust);
    let timings = spdr::decode_timings(image);
    list("identity", ours.words[1], &ours.identity, identity.as_ref().map(|l| &l[..]).map_err(|&word| word))?;
    compare_timings(ours, &timings)?;
    let flags = u8::from(identity.is_ok()) + 2 * u8::from(timings.is_ok());
    compare_findings(image, ours, flags, verdict)?;
    Ok(verdict)
}

/// An answer and a lent list against the numbers that belong there or the refusal word.
pub fn list<T: PartialEq + Copy + From<u8> + std::fmt::Display>(
    what: &str,
    word: i32,
    ours: &[T],
    wanted: Result<&[T], i32>,
) -> Result<(), String> {
    let numbers = wanted.unwrap_or(&[]);
    let answer = wanted.map_or_else(|word| word, |l| l.len() as i32);
    if word != answer {
        return Err(format!("{what}: answer {word}, should be {answer}"));
    }
    let rest = ours.len() - numbers.len();
    let whole = numbers.iter().copied().chain(std::iter::repeat_n(T::from(STAY), rest));
    match ours.iter().zip(whole).position(|(a, b)| *a != b) {
        None => Ok(()),
        Some(i) if i < numbers.len() => Err(format!("{what}: number {i} is {}, should be {}", ours[i], numbers[i])),
        Some(i) => Err(format!("{what}: number {i} was written")),
    }
}

/// What the documents make of the Rust's identity. Two rows of docs/DIFFERENCES.md are told apart here.
fn expected_identity(image: &[u8], rust: &Result<IdentityAndBase, DecodeError>) -> (Verdict, Result<[u32; 18], i32>) {
    match (rust, identity_lacks(image.len())) {
        (Err(DecodeError::UnknownEnum { .. }), Some(offset)) => (Verdict::ShortImage, Err(refusal(1, offset as i32, 0))),
        (Err(DecodeError::UnknownEnum { field: "SPD device size", value }), None) => {
            (Verdict::Same, Err(refusal(3, 1, (*value).into())))
        }
        (_, None) if matches!(image[2], 0x0B | 0x0C | 0x13) => (Verdict::OtherType, Err(refusal(2, image[2].into(), 0))),
        (Ok(d), _) => (Verdict::Same, Ok(identity_numbers(d))),
        (Err(e), _) => (Verdict::Same, Err(decode_error(*e))),
    }
}

fn decode_error(e: DecodeError) -> i32 {
    match e {
        DecodeError::Truncated { offset, .. } => refusal(1, offset as i32, 0),
        DecodeError::UnknownEnum { field: DEVICE_TYPE, value } => refusal(2, value.into(), 0),
        DecodeError::UnknownEnum { field, value } => match field_number(field) {
            Some(number) => refusal(3, number as i32, value.into()),
            None => refusal(255, 0, 0),
        },
        _ => refusal(255, 0, 0),
    }
}

fn compare_timings(ours: &Answers, rust: &Result<Timings, DecodeError>) -> Result<(), String> {
    let t = match rust {
        Ok(t) => t,
        Err(e) => {
            let word = decode_error(*e);
            list("timings", ours.words[2], &ours.timings, Err(word))?;
            list("CAS list", ours.words[3], &ours.cas, Err(word))?;
            return list("clock table", ours.words[4], &ours.clocks, Err(word));
        }
    };
    list("timings", ours.words[2], &ours.timings, Ok(&timing_numbers(t)))?;
    let mut cas = [0; 40];
    let mut n = 0;
    for cl in t.supported_cas_latencies.iter() {
        cas[n] = cl;
        n += 1;
    }
    list("CAS list", ours.words[3], &ours.cas, Ok(&cas[..n]))?;
    let clocks = clock_table(t);
    list("clock table", ours.words[4], &ours.clocks, clocks.as_ref().map(|l| &l[..]).map_err(|&word| word))
}

fn timing_numbers(t: &Timings) -> [u32; 30] {
    // The Rust keeps its mask to itself; it is made again of what it says is in the set.
    let mask = (0..40).fold(0u64, |mask, k| mask | u64::from(t.supported_cas_latencies.contains(20 + 2 * k)) << k);
    let mut out = [0; 30];
    out[0] = t.tckavg_min.0;
    out[1] = t.tckavg_max.0;
    out[2] = mask as u32;
    out[3] = (mask >> 32) as u32;
    let times = [t.taa, t.trcd, t.trp, t.tras, t.trc, t.twr, t.trfc1, t.trfc2, t.trfcsb];
    for (place, time) in out[4..13].iter_mut().zip(times) {
        *place = time.0;
    }
    let pairs = [t.trrd_l, t.tccd_l, t.tccd_l_wr, t.tccd_l_wr2, t.tfaw, t.twtr_l, t.twtr_s, t.trtp];
    for (place, pair) in out[13..29].chunks_mut(2).zip(pairs) {
        place[0] = pair.time.0;
        place[1] = pair.clocks.0.into();
    }
    out[29] = t.base_data_rate_mt_s();
    out
}

/// Document 02: (time * 997 / tCK + 1000) / 1000, each division rounded down; refused 7 with tCK 0. The product of a long time needs 64 bits.
fn clock_table(t: &Timings) -> Result<[u32; 9], i32> {
    let tck = t.tckavg_min.0;
    if tck == 0 {
        return Err(refusal(7, 0, 0));
    }
    let times = [t.taa, t.trcd, t.trp, t.tras, t.trc, t.twr, t.trfc1, t.trfc2, t.trfcsb];
    Ok(times.map(|time| ((u64::from(time.0) * 997 / u64::from(tck) + 1000) / 1000) as u32))
}

/// Document 01's severity of each code; none has code 0.
const SEVERITIES: [Option<Severity>; 10] = [
    None,
    Some(Severity::Error),
    Some(Severity::Error),
    Some(Severity::Error),
    Some(Severity::Warning),
    Some(Severity::Error),
    Some(Severity::Warning),
    Some(Severity::Info),
    Some(Severity::Warning),
    Some(Severity::Error),
];

/// The findings and flags of a written report, read by document 01's form.
fn parsed(word: i32, report: &[u8]) -> Result<(u8, Vec<Row>), String> {
    let bytes = usize::try_from(word).ok().and_then(|n| report.get(..n)).ok_or(format!("report: answer {word}"))?;
    let form = match bytes {
        [high, low, 1, flags, count, rows @ ..] => Some((256 * usize::from(*high) + usize::from(*low), *flags, *count, rows)),
        _ => None,
    };
    let (length, flags, count, rows) = form.ok_or("report: no report of version 1")?;
    if length + 2 != bytes.len() || rows.len() != 14 * usize::from(count) {
        return Err(format!("report: length {length} and {count} findings in {} bytes", bytes.len()));
    }
    if report[bytes.len()..].iter().any(|&b| b != STAY) {
        return Err("report: bytes behind it were written".into());
    }
    let number = |four: &[u8]| four.iter().fold(0, |n, &b| 256 * n + u32::from(b));
    let findings = rows.chunks(14).map(|r| [r[0].into(), r[1].into(), number(&r[2..6]), number(&r[6..10]), number(&r[10..14])]);
    Ok((flags, findings.collect()))
}

/// The library reads its own report back as `parsed` did.
fn read_back(report: &[u8], flags: u8, findings: &[Row]) -> Result<(), String> {
    let mut numbers = [u32::from(STAY); ours::REPORT_NUMBERS];
    let word = ours::report(report, &mut numbers);
    let six = |&[code, sub, first, second, third]: &Row| {
        let severity = match SEVERITIES[code as usize] {
            Some(Severity::Error) => 0,
            Some(Severity::Warning) => 1,
            Some(Severity::Info) => 2,
            _ => u32::MAX,
        };
        [code, severity, sub, first, second, third]
    };
    let wanted: Vec<u32> = std::iter::once(flags.into()).chain(findings.iter().flat_map(six)).collect();
    list("report read back", word, &numbers, Ok(&wanted))
}

fn compare_findings(image: &[u8], ours: &Answers, flags: u8, verdict: Verdict) -> Result<(), String> {
    let mut rust: Vec<Row> = Vec::with_capacity(16);
    let mut severe = Ok(());
    spdr::lint(image, &mut |f: Finding| {
        let row = row(&f);
        if SEVERITIES[row[0] as usize] != Some(f.severity()) {
            severe = Err(format!("finding {}: the Rust's severity is {:?}", rust.len(), f.severity()));
        }
        // Where Roostcord refuses another device type, it has no identity to apply these two rules to.
        if verdict != Verdict::OtherType || !matches!(row[0], 1 | 9) {
            rust.push(row);
        }
    });
    severe?;
    reported(ours, flags, &rust)
}

/// The report has these flags and these findings, and no other byte of it is written.
pub fn reported(ours: &Answers, flags: u8, wanted: &[Row]) -> Result<(), String> {
    let (got, findings) = findings(ours)?;
    if got != flags {
        return Err(format!("edition {}: flags {got}, should be {flags}", ours.edition));
    }
    if findings != wanted {
        let i = findings.iter().zip(wanted).take_while(|(a, b)| a == b).count();
        return Err(format!("edition {}: finding {i}: {:?}, should be {:?}", ours.edition, findings.get(i), wanted.get(i)));
    }
    read_back(&ours.report[..ours.words[0] as usize], got, &findings)
}

/// The flags of the report, and its findings.
pub fn findings(ours: &Answers) -> Result<(u8, Vec<Row>), String> {
    parsed(ours.words[0], &ours.report).map_err(|item| format!("edition {}: {item}", ours.edition))
}

/// How an image is cut into pieces.
#[derive(Clone, Copy)]
pub enum Cut {
    Whole,
    Random,
    /// A first piece, then pieces of sixteen bytes.
    Bursts(usize),
}

/// Feeds an image in pieces, to a state of the edition under which the whole image was asked. Each piece is also sent too early and, once taken, a
/// second time; both must be refused 5 with the count and change nothing. In the end every answer must be that for the whole image.
pub fn feed(image: &[u8], cut: Cut, rng: &mut Rng, whole: &Answers) -> Result<(), String> {
    let mut state = [STAY; ours::STATE_SIZE];
    expect("fresh", 0, ours::pieces_fresh(&mut state, whole.edition), 0)?;
    let mut at = 0;
    let mut first = true;
    while at < image.len() {
        let size = match cut {
            Cut::Whole => image.len(),
            Cut::Bursts(n) if first => n,
            Cut::Bursts(_) => 16,
            Cut::Random => rng.pick(&[0, 1, 2, 7, 16, 16, 64, 200, 500]).min(rng.below(1000)),
        };
        first = false;
        let end = image.len().min(at + size);
        let piece = &image[at..end];
        if size != 0 {
            let before = state;
            expect("a piece too early", at, ours::pieces_feed(&mut state, at + size, piece), refusal(5, at as i32, 0))?;
            unchanged(&before, &state, at)?;
        }
        expect("a piece", at, ours::pieces_feed(&mut state, at, piece), end as i32)?;
        if end != at {
            let before = state;
            expect("a piece twice", at, ours::pieces_feed(&mut state, at, piece), refusal(5, end as i32, 0))?;
            unchanged(&before, &state, at)?;
        }
        at = end;
    }
    full(&mut state, at)?;
    expect("the count taken", at, ours::pieces_taken(&state), at as i32)?;
    manufacturing::too_short(image, &state, whole.strict, rng)?;
    crc::too_short(&state, rng)?;
    editions::refused(image, &mut state, rng)?;
    let answers = Answers::of(&state, &OF_STATE, whole.edition, whole.strict);
    if answers == *whole {
        Ok(())
    } else {
        Err(format!("pieces: an answer is not that for the whole image under edition {}", whole.edition))
    }
}

/// One byte more than there is room for is refused 6.
fn full(state: &mut [u8; ours::STATE_SIZE], taken: usize) -> Result<(), String> {
    let zeros = [0; ours::IMAGE_MAX + 1];
    let before = *state;
    expect("too long a piece", taken, ours::pieces_feed(state, taken, &zeros[taken..]), refusal(6, 0, 0))?;
    unchanged(&before, state, taken)
}

fn expect(what: &str, at: usize, word: i32, wanted: i32) -> Result<(), String> {
    if word == wanted { Ok(()) } else { Err(format!("pieces: {what} at byte {at}: answer {word}, should be {wanted}")) }
}

fn unchanged(before: &[u8], after: &[u8], at: usize) -> Result<(), String> {
    if before == after { Ok(()) } else { Err(format!("pieces: a refused piece at byte {at} changed the state")) }
}
