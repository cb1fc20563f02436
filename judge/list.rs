//! Writes a list of images with the answers of the Rust linter spdr, for the program `replay` (crates/replay) to replay.
//!
//!     list fixed            the images that crates/replay/stdin holds: every code, refusal and boundary
//!     list random N SEED    N images, changed and cut at random
//!
//! The list goes to standard output; what it covers, in counts, to standard error.
//!
//! Format. 16-bit and 32-bit values stand low byte first.
//!
//!     list    the eight letters ROOSTLST, the count of records (32 bits), the records
//!     record  the count of bytes that follow (16 bits), a kind (a byte), the rest
//!     kind 0  a base image: its bytes; behind them it is zero
//!     kind 1  an image: its length (16 bits), the count of bytes in which it differs from the last base image (8 bits), each of these
//!             as offset (16 bits) and value (8 bits), then the answers, as numbers
//!     kind 2  the same, where the answers are document 01's and docs/DIFFERENCES.md lists that the Rust answers otherwise
//!
//! A number is one byte below 254; or 254 and 16 bits; or 255 and 32 bits. The answers, in this order:
//!
//!     identity  0 and the record's eighteen numbers, or the refusal: its number and two values, 0 where it carries none
//!     timings   0 and the record's twenty-eight numbers without the CAS set, or the refusal
//!     rate      0 without timings, else 1 and the data rate
//!     cas       0 without timings, else 1, the count and the CAS latencies
//!     findings  the count, and of each code, severity (1 error, 2 warning, 3 info), sub and three numbers
//!     rated     0 without a rated profile, else 1 and its findings as above; judge/vendor.rs says where an image has one
//!
//! The domain: byte 2 is 0x12 or one that the Rust refuses too, and an image is zero from byte 640 on but for the block of a rated
//! profile. An image under 236 bytes with a bad code is of kind 2: the Rust names the code, document 01 asks for refusal 1 first, which
//! names the first byte that is missing.

mod numbers;

use numbers::{DEVICE_TYPE, field_number, identity_lacks, identity_numbers, row};
use spdr::{DecodeError, Finding, Severity, TimingPair, Timings, Xmp};
use std::collections::{BTreeMap, BTreeSet};
use std::io::Write;

/// The sample without its manufacturing block: no answer in the list is of a byte past 511 but a rated profile's.
const SOUND: &[u8] = include_bytes!("../samples/ddr5-4800.bin").split_at(512).0;
const MARK: usize = 640;
const MARKED: usize = 672;
const REGIONS: [(usize, usize); 7] = [(15, 1), (29, 1), (103, 25), (128, 64), (214, 16), (236, 4), (448, 62)];
/// The types that the Rust decodes and document 01 refuses.
const OTHER_TYPES: [u8; 3] = [0x0B, 0x0C, 0x13];

// ---- the Rust's answers as numbers

fn bad_code(error: DecodeError) -> Option<Vec<u32>> {
    let DecodeError::UnknownEnum { field, value } = error else {
        return None;
    };
    if field == DEVICE_TYPE {
        return Some(vec![2, value.into(), 0]);
    }
    let number = field_number(field).unwrap_or_else(|| panic!("a field that document 01 does not have: {field}"));
    Some(vec![3, number, value.into()])
}

/// Refusal 1, with the offset that the Rust names.
fn truncated(error: DecodeError) -> Vec<u32> {
    let DecodeError::Truncated { offset, .. } = error else {
        panic!("a refusal that document 01 does not have: {error}");
    };
    vec![1, offset as u32, 0]
}

fn timing_numbers(t: &Timings) -> Vec<u32> {
    let times = [t.tckavg_min, t.tckavg_max, t.taa, t.trcd, t.trp, t.tras, t.trc, t.twr, t.trfc1, t.trfc2, t.trfcsb];
    let pairs: [TimingPair; 8] = [t.trrd_l, t.tccd_l, t.tccd_l_wr, t.tccd_l_wr2, t.tfaw, t.twtr_l, t.twtr_s, t.trtp];
    let mut numbers = vec![0];
    numbers.extend(times.iter().map(|x| x.picoseconds()));
    for pair in pairs {
        numbers.extend([pair.time.picoseconds(), pair.clocks.cycles().into()]);
    }
    numbers
}

/// A finding as code, severity, sub and three numbers.
fn finding_numbers(f: &Finding) -> [u32; 6] {
    let severity = match f.severity() {
        Severity::Error => 1,
        Severity::Warning => 2,
        Severity::Info => 3,
    };
    let [code, sub, first, second, third] = row(f);
    assert!(code != 0, "a finding that document 01 does not have");
    [code, severity, sub, first, second, third]
}

fn findings_of(image: &[u8]) -> Vec<[u32; 6]> {
    let mut found = Vec::new();
    spdr::lint(image, &mut |f: Finding| found.push(finding_numbers(&f)));
    found
}

/// What the list says of an image.
struct Answers {
    listed: bool,
    identity: Vec<u32>,
    timings: Vec<u32>,
    rate: Vec<u32>,
    cas: Vec<u32>,
    findings: Vec<[u32; 6]>,
    rated: Option<Vec<[u32; 6]>>,
}

fn answers(image: &[u8]) -> Answers {
    let mut listed = false;
    let identity = match spdr::decode_identity_and_base(image) {
        Ok(d) => [&[0], &identity_numbers(&d)[..]].concat(),
        Err(error) => match (bad_code(error), identity_lacks(image.len())) {
            (Some(_), Some(offset)) => {
                listed = true;
                vec![1, offset, 0]
            }
            (Some(refusal), None) => refusal,
            (None, _) => truncated(error),
        },
    };
    let (timings, rate, cas) = match spdr::decode_timings(image) {
        Ok(t) => {
            let list: Vec<u32> = t.supported_cas_latencies.iter().map(u32::from).collect();
            let mut cas = vec![1, list.len() as u32];
            cas.extend(list);
            (timing_numbers(&t), vec![1, t.base_data_rate_mt_s()], cas)
        }
        Err(error) => (truncated(error), vec![0], vec![0]),
    };
    // The base rules' findings are those without the mark; what comes behind them is the profile's.
    let all = findings_of(image);
    let profile = matches!(spdr::decode_vendor_profiles(image).unwrap().xmp, Xmp::Present { .. });
    let (findings, rated) = if profile {
        let mut unmarked = image.to_vec();
        unmarked[MARK] = 0;
        let base = findings_of(&unmarked);
        assert!(all.starts_with(&base));
        let rest = all[base.len()..].to_vec();
        (base, Some(rest))
    } else {
        (all, None)
    };
    Answers { listed, identity, timings, rate, cas, findings, rated }
}

// ---- the list's form

fn put(out: &mut Vec<u8>, n: u32) {
    if n < 254 {
        out.push(n as u8);
    } else if n < 65536 {
        out.push(254);
        out.extend((n as u16).to_le_bytes());
    } else {
        out.push(255);
        out.extend(n.to_le_bytes());
    }
}

fn put_findings(out: &mut Vec<u8>, findings: &[[u32; 6]]) {
    put(out, findings.len() as u32);
    findings.iter().flatten().for_each(|&n| put(out, n));
}

#[derive(Default)]
struct List {
    records: u32,
    bytes: Vec<u8>,
    base: Vec<u8>,
    seen: BTreeSet<Vec<u8>>,
    images: usize,
    listed: usize,
    cover: BTreeMap<String, usize>,
}

impl List {
    fn record(&mut self, record: &[u8]) {
        self.records += 1;
        self.bytes.extend((record.len() as u16).to_le_bytes());
        self.bytes.extend(record);
    }

    /// The base image of the images that follow.
    fn base(&mut self, image: &[u8]) {
        self.base = image.to_vec();
        let mut record = vec![0];
        record.extend(image);
        self.record(&record);
    }

    fn count(&mut self, what: String) {
        *self.cover.entry(what).or_default() += 1;
    }

    /// Adds an image with its answers, unless it is there already or outside the domain.
    fn add(&mut self, image: &[u8]) {
        if image.len() > 2 && OTHER_TYPES.contains(&image[2]) || !self.seen.insert(image.to_vec()) {
            return;
        }
        let a = answers(image);
        let old = |i: usize| self.base.get(i).copied().unwrap_or(0);
        let changes: Vec<usize> = (0..image.len()).filter(|&i| image[i] != old(i)).collect();
        assert!(image.len() <= 2048 && changes.len() < 256);
        let mut record = vec![if a.listed { 2 } else { 1 }];
        record.extend((image.len() as u16).to_le_bytes());
        record.push(changes.len() as u8);
        for i in changes {
            record.extend((i as u16).to_le_bytes());
            record.push(image[i]);
        }
        for part in [&a.identity, &a.timings, &a.rate, &a.cas] {
            part.iter().for_each(|&n| put(&mut record, n));
        }
        put_findings(&mut record, &a.findings);
        match &a.rated {
            None => put(&mut record, 0),
            Some(rated) => {
                put(&mut record, 1);
                put_findings(&mut record, rated);
            }
        }
        self.record(&record);
        self.images += 1;
        self.listed += usize::from(a.listed);
        self.cover(&a);
    }

    fn cover(&mut self, a: &Answers) {
        let severity = |s: u32| ["error", "warning", "info"][s as usize - 1];
        match a.identity[0] {
            0 => self.count("identity decoded".into()),
            3 => self.count(format!("identity refused 3, field {}", a.identity[1])),
            n => self.count(format!("identity refused {n}")),
        }
        self.count(if a.timings[0] == 0 { "timings decoded".into() } else { "timings refused 1".into() });
        for f in &a.findings {
            self.count(format!("code {} sub {} {}", f[0], f[2], severity(f[1])));
        }
        self.count(format!("images with {:2} findings", a.findings.len()));
        if let Some(rated) = &a.rated {
            for f in rated {
                self.count(format!("rated code {} sub {} {}", f[0], f[2], severity(f[1])));
            }
            self.count(format!("rated profiles with {} findings", rated.len()));
        }
    }

    /// The image with some bytes set; it grows with zeros where it is too short.
    fn with(&mut self, image: &[u8], bytes: &[(usize, u8)]) {
        let mut image = image.to_vec();
        for &(i, b) in bytes {
            if image.len() <= i {
                image.resize(i + 1, 0);
            }
            image[i] = b;
        }
        self.add(&image);
    }

    fn finish(self) {
        let mut out = std::io::stdout().lock();
        let mut head = b"ROOSTLST".to_vec();
        head.extend(self.records.to_le_bytes());
        out.write_all(&head).unwrap();
        out.write_all(&self.bytes).unwrap();
        for (what, n) in &self.cover {
            eprintln!("{n:6}  {what}");
        }
        eprintln!("list: {} images, {} of them listed, {} bytes", self.images, self.listed, head.len() + self.bytes.len());
    }
}

// ---- images

fn cut(image: &[u8], len: usize) -> Vec<u8> {
    let mut image = image.to_vec();
    image.resize(len, 0);
    image
}

fn set16(image: &mut [u8], at: usize, n: u16) {
    image[at..at + 2].copy_from_slice(&n.to_le_bytes());
}

/// The sound image with 16-bit times: (offset, value).
fn timed(times: &[(usize, u16)]) -> Vec<u8> {
    let mut image = SOUND.to_vec();
    for &(at, n) in times {
        set16(&mut image, at, n);
    }
    image
}

const TCK: usize = 20;
const TAA: usize = 30;
const TRCD: usize = 32;
const TRP: usize = 34;
const TRAS: usize = 36;
const TRC: usize = 38;

/// The seven timing findings of document 01's last bench line.
fn seven() -> Vec<u8> {
    timed(&[(TCK, 400), (TAA, 401), (TRCD, 403), (TRP, 401), (TRAS, 402), (TRC, 401)])
}

/// All fifteen findings that an image can have: bus 8 with I/O 16, and a byte in each region.
fn fifteen() -> Vec<u8> {
    let mut image = seven();
    image[6] = 0x40;
    image[235] = 0x20;
    for (k, (first, count)) in REGIONS.iter().enumerate() {
        image[first + count - 1] = k as u8 + 1;
    }
    image
}

/// The same with every byte of the regions set.
fn loud() -> Vec<u8> {
    let mut image = fifteen();
    for (first, count) in REGIONS {
        image[first..first + count].fill(0xFF);
    }
    image
}

/// The sound image with a rated profile: cycle time, tAA, tRCD, tRP, tRAS, data rate.
fn rated(profile: [u32; 6]) -> Vec<u8> {
    let mut image = cut(SOUND, MARKED);
    image[MARK..MARK + 8].copy_from_slice(b"ROOSTCRD");
    for (k, n) in profile.iter().enumerate() {
        image[MARK + 8 + 4 * k..MARK + 12 + 4 * k].copy_from_slice(&n.to_le_bytes());
    }
    image
}

/// splitmix64.
struct Random(u64);

impl Random {
    fn next(&mut self) -> u64 {
        self.0 = self.0.wrapping_add(0x9E37_79B9_7F4A_7C15);
        let mut z = self.0;
        z = (z ^ (z >> 30)).wrapping_mul(0xBF58_476D_1CE4_E5B9);
        z = (z ^ (z >> 27)).wrapping_mul(0x94D0_49BB_1331_11EB);
        z ^ (z >> 31)
    }

    fn below(&mut self, n: usize) -> usize {
        (self.next() % n as u64) as usize
    }
}

// ---- the fixed list, part by part

/// Document 01's own images: the listing's, and the bench lines on an image.
fn bench(list: &mut List) {
    list.with(&cut(&[], 256), &[(15, 7), (38, 5)]);
    list.add(SOUND);
    list.with(SOUND, &[(6, 0x40), (235, 0x20)]);
    list.add(&seven());
    list.add(&fifteen());
    list.with(SOUND, &[(3, 0x82)]);
    list.with(SOUND, &[(3, 0x09)]);
    list.with(SOUND, &[(4, 0xA4)]);
    list.with(SOUND, &[(4, 0xC1)]);
    list.with(SOUND, &[(0, 0x30)]);
    list.with(SOUND, &[(0, 0x80)]);
    list.with(SOUND, &[(5, 0xFF)]);
    list.add(&timed(&[(TCK, 416)]));
    list.add(&timed(&[(TCK, 40000)]));
    list.add(&timed(&[(TCK, 40001)]));
    list.with(SOUND, &[(24, 1), (25, 0), (26, 0), (27, 0), (28, 0x80)]);
    list.with(&cut(SOUND, 127), &[(103, 1)]);
    list.with(&cut(SOUND, 128), &[(103, 1)]);
    list.add(&timed(&[(TAA, 16640)]));
    list.add(&timed(&[(TAA, 16641)]));
}

/// Every length at which an answer changes, the offset that is missing too, and its neighbours, on images that show it.
fn lengths(list: &mut List) {
    let mut at: BTreeSet<usize> = (0..=95).chain([233, 234]).collect();
    for end in [236, 512, 640, 672, 1024, 2047] {
        at.extend([end - 1, end, end + 1]);
    }
    for (first, count) in REGIONS {
        at.extend([first, first + 1, first + count - 1, first + count, first + count + 1]);
    }
    for image in [SOUND, &loud()] {
        for &len in &at {
            list.add(&cut(image, len));
        }
    }
    for &len in &at {
        list.add(&vec![0; len]);
    }
}

/// Every value of the identity bytes that matters; byte 2 is tried whole.
fn codes(list: &mut List) {
    for code in 0..8 {
        for rest in [0x00, 0x80, 0x0F, 0x8F] {
            list.with(SOUND, &[(0, code << 4 | rest)]);
        }
    }
    for revision in [0x00, 0x01, 0x0F, 0x10, 0x11, 0xF0, 0xFF] {
        list.with(SOUND, &[(1, revision)]);
    }
    for byte in 0..=255 {
        list.with(SOUND, &[(2, byte)]);
        list.with(SOUND, &[(4, byte)]);
    }
    for code in 0..16 {
        for rest in [0x00, 0x10, 0x70, 0x80, 0xF0] {
            list.with(SOUND, &[(3, code | rest)]);
        }
    }
    for rows in 0..32 {
        list.with(SOUND, &[(5, rows)]);
    }
    for columns in 0..8 {
        list.with(SOUND, &[(5, columns << 5)]);
        list.with(SOUND, &[(5, columns << 5 | 0x1F)]);
    }
    for width in 0..8 {
        list.with(SOUND, &[(6, width << 5)]);
        list.with(SOUND, &[(6, width << 5 | 0x1F)]);
    }
    for groups in 0..8 {
        for banks in 0..8 {
            list.with(SOUND, &[(7, groups << 5 | banks)]);
        }
        list.with(SOUND, &[(7, groups << 5 | 0x1A)]);
    }
    for ranks in 0..8 {
        for rest in [0x00, 0x40, 0x80, 0x07, 0xC7] {
            list.with(SOUND, &[(234, ranks << 3 | rest)]);
        }
    }
    for channels in 0..8 {
        for bus in 0..8 {
            list.with(SOUND, &[(235, channels << 5 | bus)]);
        }
        list.with(SOUND, &[(235, channels << 5 | 0x1A)]);
    }
    // bus width against I/O width, all sixteen
    for width in 0..4 {
        for bus in 0..4 {
            list.with(SOUND, &[(6, width << 5), (235, 0x20 | bus)]);
        }
    }
}

/// A bad code in each field: byte, bits to clear, bits to set.
const BAD: [(usize, u8, u8); 10] = [
    (0, 0x70, 0x50),
    (2, 0xFF, 0x20),
    (3, 0x0F, 0x0C),
    (4, 0x1F, 0x09),
    (4, 0xE0, 0xC0),
    (6, 0xE0, 0x80),
    (7, 0xE0, 0xA0),
    (7, 0x07, 0x03),
    (235, 0x07, 0x04),
    (235, 0xE0, 0x80),
];

fn spoil(image: &mut [u8], (at, clear, set): (usize, u8, u8)) {
    image[at] = image[at] & !clear | set;
}

/// Which bad code is named first, of any two and of all from one on; and bad codes in short images, the listed ones.
fn order(list: &mut List) {
    for i in 0..BAD.len() {
        let mut rest = SOUND.to_vec();
        for bad in &BAD[i..] {
            spoil(&mut rest, *bad);
        }
        list.add(&rest);
        for j in i + 1..BAD.len() {
            let mut image = SOUND.to_vec();
            spoil(&mut image, BAD[i]);
            spoil(&mut image, BAD[j]);
            list.add(&image);
        }
        let mut image = SOUND.to_vec();
        spoil(&mut image, BAD[i]);
        let first = BAD[i].0 + 1;
        for len in [first - 1, first, first + 1, 93, 94, 128, 235, 236] {
            list.add(&cut(&image, len));
        }
    }
}

/// The reserved regions: their ends and what lies beside them, cut off by one or not; any set of them.
fn regions(list: &mut List) {
    for (first, count) in REGIONS {
        let last = first + count - 1;
        for at in BTreeSet::from([first, first + count / 2, last]) {
            for value in [1, 255] {
                for len in [last, last + 1, last + 2, 512] {
                    let mut image = cut(SOUND, len);
                    if at < len {
                        image[at] = value;
                    }
                    list.add(&image);
                }
            }
        }
        list.with(SOUND, &[(first - 1, SOUND[first - 1] ^ 0x80)]);
        list.with(SOUND, &[(last + 1, SOUND[last + 1] ^ 0x80)]);
        list.with(SOUND, &[(first, 3), (last, 9)]);
        list.with(SOUND, &[(last, 9)]);
    }
    for set in 0..128 {
        let mut image = SOUND.to_vec();
        for (k, (first, count)) in REGIONS.iter().enumerate() {
            if set >> k & 1 == 1 {
                image[first + (set * 5 + k) % count] = (set + k) as u8 | 1;
            }
        }
        list.add(&image);
    }
}

/// Each number of the timing record at its ends.
fn times(list: &mut List) {
    for at in [20, 22, 30, 32, 34, 36, 38, 40, 42, 44, 46, 70, 73, 76, 79, 82, 85, 88, 91] {
        for n in [0, 1, 253, 254, 255, 256, 0x1234, 65535] {
            list.add(&timed(&[(at, n)]));
        }
    }
    for at in [72, 75, 78, 81, 84, 87, 90, 93] {
        for n in [0, 1, 253, 254, 255] {
            list.with(SOUND, &[(at, n)]);
        }
    }
    // each CAS latency alone, all but it, and byte 29, which is none of them
    for bit in 0..48 {
        let mut one = SOUND.to_vec();
        one[24..30].fill(0);
        one[24 + bit / 8] = 1 << (bit % 8);
        list.add(&one);
        one[24..29].iter_mut().for_each(|b| *b = !*b);
        list.add(&one);
    }
}

/// The cycle time: the ends, and each rate of the ladder with its neighbours.
fn rates(list: &mut List) {
    let rate = |tck: u32| (2_000_000 / tck + 50) / 100 * 100;
    let mut at: BTreeSet<u32> = BTreeSet::from([0, 1, 2, 3, 99, 100, 39999, 40000, 40001, 65534, 65535]);
    for target in (2800..=9200).step_by(100) {
        let of: Vec<u32> = (1..65536).filter(|&tck| rate(tck) == target).collect();
        at.extend(of.first());
        at.extend(of.last());
    }
    for &tck in &at {
        list.add(&timed(&[(TCK, tck as u16)]));
    }
    for tck in [0, 1, 2, 39999, 40000, 40001, 65535] {
        list.add(&timed(&[(TCK, tck), (TAA, tck), (TRCD, tck), (TRP, tck), (TRAS, tck), (TRC, tck)]));
    }
}

/// Each timing rule at its boundary.
fn rules(list: &mut List) {
    // tAA / tCK, whole and in the set or not, and one picosecond beside it
    for cl in (0..=104).chain([158, 163]) {
        for set in [0x55, 0xFF, 0x00] {
            if set != 0x55 && cl % 7 != 6 {
                continue;
            }
            let mut image = timed(&[(TCK, 400), (TAA, cl * 400)]);
            image[24..29].fill(set);
            list.add(&image);
        }
    }
    for beside in [-1, 0, 1] {
        let near = |n: u16| (i32::from(n) + beside) as u16;
        for (tras, trp) in [(32000, 16640), (65535, 0), (0, 65535), (32767, 32768), (0, 1), (1, 0)] {
            list.add(&timed(&[(TRAS, tras), (TRP, trp), (TRC, near((u32::from(tras) + u32::from(trp)) as u16))]));
        }
        for n in [1, 416, 16640, 65534] {
            list.add(&timed(&[(TRAS, near(n)), (TRCD, n)]));
            list.add(&timed(&[(TRC, near(n)), (TRAS, n)]));
        }
        for n in [416, 832, 416 * 40, 416 * 157] {
            list.add(&timed(&[(TAA, near(n))]));
            list.add(&timed(&[(TRCD, near(n))]));
            list.add(&timed(&[(TRP, near(n))]));
        }
    }
    // sums past 16 bits, which no tRC can reach
    for (tras, trp, trc) in
        [(65535, 65535, 65535), (65535, 65535, 65534), (65535, 1, 0), (40000, 40000, 14464), (32768, 32768, 0)]
    {
        list.add(&timed(&[(TRAS, tras), (TRP, trp), (TRC, trc)]));
    }
}

/// Images found at random, each with a set of findings (or a refusal beside it) that no earlier one had.
fn mixtures(list: &mut List, most: usize) {
    let mut random = Random(1);
    let mut seen = BTreeSet::new();
    let small = [0, 1, 2, 3, 400, 401, 416, 800, 802, 16640, 40001, 65535];
    while seen.len() < most {
        let mut image = SOUND.to_vec();
        for at in [TCK, TAA, TRCD, TRP, TRAS, TRC] {
            if random.below(3) != 0 {
                set16(&mut image, at, small[random.below(small.len())]);
            }
        }
        for (first, count) in REGIONS {
            if random.below(4) == 0 {
                image[first + random.below(count)] = random.next() as u8;
            }
        }
        if random.below(2) == 0 {
            image[6] = (random.below(4) as u8) << 5;
            image[235] = random.below(4) as u8;
        }
        if random.below(6) == 0 {
            let k = random.below(BAD.len());
            spoil(&mut image, BAD[k]);
        }
        if random.below(5) == 0 {
            image.truncate([93, 94, 127, 128, 192, 235, 239, 509][random.below(8)]);
        }
        let a = answers(&image);
        let mut shape: Vec<u32> = a.findings.iter().map(|f| f[0] * 10 + f[2]).filter(|f| f / 10 != 8).collect();
        shape.push(a.findings.iter().filter(|f| f[0] == 8).count() as u32);
        shape.push(a.identity[0] * 100 + a.timings[0]);
        if !a.listed && seen.insert(shape) {
            list.add(&image);
        }
    }
}

/// Rated profiles: each rule at its boundary, any set of findings, and numbers past 16 bits, which no image's own times reach.
fn profiles(list: &mut List) {
    let sound = [416, 16640, 16640, 16640, 32000, 4800];
    for k in 0..6 {
        for n in [0, 1, 2, 415, 416, 417, 16639, 16640, 16641, 31999, 32000, 32001, 65535, 65536, 1 << 31, u32::MAX - 1, u32::MAX]
        {
            let mut profile = sound;
            profile[k] = n;
            list.add(&rated(profile));
        }
    }
    for rate in (2800..=9200).step_by(400) {
        for near in [rate - 1, rate, rate + 1] {
            list.add(&rated([416, 16640, 16640, 16640, 32000, near]));
        }
    }
    for set in 0..32 {
        let on = |k: u32| (set >> k) & 1;
        list.add(&rated([400, 8000 + on(1), 8400 + on(2), 8800 + on(3), if on(0) == 1 { 8000 } else { 9200 }, 6000 + on(4)]));
    }
    // no cycle time: the clock rules are silent, the rate is not
    list.add(&rated([0, 1, 3, 5, 2, 100]));
    list.add(&rated([0, 0, 0, 0, 0, 0]));
    list.add(&rated([u32::MAX; 6]));
    // no profile: a letter of the mark changed, the block cut off; and one with zeros behind it
    let mut image = rated([400, 401, 403, 401, 402, 5000]);
    for at in MARK..MARK + 8 {
        list.with(&image, &[(at, image[at] + 1)]);
    }
    for len in [MARK, MARK + 1, MARK + 8, MARKED - 1, MARKED, MARKED + 1, 2048] {
        list.add(&cut(&image, len));
    }
    // a profile beside all fifteen findings of the base block, and beside a refused identity
    image[..512].copy_from_slice(&fifteen());
    list.add(&image);
    image[0] = 0;
    list.add(&image);
}

/// Random changes and cuts of the base image.
fn scattered(list: &mut List, base: &[u8], n: usize, random: &mut Random) {
    let interesting = [
        0, 2, 3, 4, 5, 6, 7, 15, 20, 21, 24, 28, 29, 30, 32, 34, 36, 38, 103, 127, 128, 191, 214, 229, 234, 235, 236, 239, 448,
        509,
    ];
    let before = list.images;
    while list.images < before + n {
        let mut image = base.to_vec();
        for _ in 0..random.below(9) {
            let at = match random.below(3) {
                0 => random.below(96),
                1 => interesting[random.below(interesting.len())],
                _ => random.below(512),
            };
            image[at] = match random.below(4) {
                0 => 0,
                1 => 1 << random.below(8),
                _ => random.next() as u8,
            };
        }
        if random.below(2) == 0 {
            image[2] = 0x12;
        }
        if image.len() > MARK {
            for k in 0..6 {
                if random.below(2) == 0 {
                    let n = [random.next() as u32, random.below(70000) as u32, 416 * random.below(200) as u32][random.below(3)];
                    image[MARK + 8 + 4 * k..MARK + 12 + 4 * k].copy_from_slice(&n.to_le_bytes());
                }
            }
        } else if random.below(4) == 0 {
            image.truncate(random.below(513));
        }
        list.add(&image);
    }
}

fn fixed() -> List {
    let mut list = List::default();
    list.base(SOUND);
    bench(&mut list);
    codes(&mut list);
    order(&mut list);
    regions(&mut list);
    times(&mut list);
    rates(&mut list);
    rules(&mut list);
    mixtures(&mut list, 200);
    scattered(&mut list, SOUND, 150, &mut Random(2));
    list.base(&loud());
    lengths(&mut list);
    list.base(&rated([416, 16640, 16640, 16640, 32000, 4800]));
    profiles(&mut list);
    scattered(&mut list, &rated([416, 16640, 16640, 16640, 32000, 4800]), 100, &mut Random(3));
    list
}

fn random(n: usize, seed: u64) -> List {
    let mut list = List::default();
    let mut random = Random(seed);
    let profile = rated([416, 16640, 16640, 16640, 32000, 4800]);
    for (base, share) in [(SOUND.to_vec(), n - n / 4 - n / 4), (fifteen(), n / 4), (profile, n / 4)] {
        list.base(&base);
        scattered(&mut list, &base, share, &mut random);
    }
    list
}

fn main() {
    let words: Vec<String> = std::env::args().skip(1).collect();
    match words.iter().map(String::as_str).collect::<Vec<_>>()[..] {
        ["fixed"] => fixed().finish(),
        ["random", n, seed] => match (n.parse(), seed.parse()) {
            (Ok(n), Ok(seed)) => random(n, seed).finish(),
            _ => usage(),
        },
        _ => usage(),
    }
}

fn usage() {
    eprintln!("usage: list fixed | list random N SEED");
    std::process::exit(2);
}
