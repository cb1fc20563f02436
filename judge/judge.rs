//! The Rust linter spdr as judge of Roostcord: both are asked of the same images, and every difference that docs/DIFFERENCES.md
//! does not list is a fault. Usage: judge IMAGES [SEED]. Fixed families run first, then random images until there are so many.
//! Progress and differences go to stderr, one line of figures to stdout; exit status 1 on a difference, 2 if too little was tried.

mod compare;
mod crc;
mod editions;
mod images;
mod manufacturing;
mod numbers;
mod ours;

use compare::{Answers, Cut, Verdict};
use crc::Sound;
use images::{
    BLOCK, CYCLE_TIMES, DATE, FAST_TIMES, MODULES, PART, PROFILES, RESERVED, Rng, TIME_OFFSETS, put_block, put_cas, put16, seal,
    sound_images,
};
use std::io::IsTerminal;
use std::process::ExitCode;
use std::time::{Duration, Instant};

/// So many differences are printed, and after so many nothing more is judged.
const PRINTED: u64 = 20;
const ENOUGH: u64 = 1000;

/// The run: what was seen, and where it stands.
struct Judge {
    seed: u64,
    images: u64,
    wanted: u64,
    fed: u64,
    short: u64,
    other: u64,
    part_cut: u64,
    not_ascii: u64,
    zero_padded: u64,
    covered_cut: u64,
    differences: u64,
    /// How many images decode, and how many findings of each code they have: that not all images end at the first check.
    identities: u64,
    timings: u64,
    findings: [u64; 10],
    /// How many images have a finding more under edition 1, by their data rate; and of those in pieces.
    added: [u64; editions::ADDED.len()],
    added_fed: [u64; editions::ADDED.len()],
    /// How many manufacturing blocks decode, by the length of their part number; how many of them the strict mode takes.
    parts: [u64; 31],
    strict: u64,
    /// How many base CRCs do not fit, and how many do; of the images in pieces; and which families have none that does.
    crcs: [u64; 2],
    crcs_fed: [u64; 2],
    unfit: Vec<&'static str>,
    /// How many bursts that came twice changed a sound block, and how many of these the CRC sees.
    bent: u64,
    bent_seen: u64,
    /// Of two reads: how often both were sound, the first alone, the second alone, neither.
    reads: [u64; 4],
    /// The image at hand, with its block, and copies of it.
    image: Vec<u8>,
    copies: crc::Copies,
    family: &'static str,
    family_start: u64,
    started: Instant,
    shown: Instant,
}

impl Judge {
    fn new(wanted: u64, seed: u64) -> Self {
        let now = Instant::now();
        Judge {
            seed,
            images: 0,
            wanted,
            fed: 0,
            short: 0,
            other: 0,
            part_cut: 0,
            not_ascii: 0,
            zero_padded: 0,
            covered_cut: 0,
            differences: 0,
            identities: 0,
            timings: 0,
            findings: [0; 10],
            added: [0; editions::ADDED.len()],
            added_fed: [0; editions::ADDED.len()],
            parts: [0; 31],
            strict: 0,
            crcs: [0; 2],
            crcs_fed: [0; 2],
            unfit: Vec::new(),
            bent: 0,
            bent_seen: 0,
            reads: [0; 4],
            image: Vec::new(),
            copies: crc::Copies::default(),
            family: "",
            family_start: 0,
            started: now,
            shown: now,
        }
    }

    /// Runs one family and prints its count. One of some size must have a base CRC that fits.
    fn family(&mut self, name: &'static str, run: fn(&mut Judge)) {
        self.family = name;
        self.family_start = self.images;
        let fitted = self.crcs[1];
        run(self);
        self.clear();
        let count = self.images - self.family_start;
        if count >= 1000 && self.crcs[1] == fitted {
            self.unfit.push(name);
        }
        eprintln!("judge: {name}: {count} images");
    }

    /// Judges one image, one in eight of them in random pieces as well.
    fn see(&mut self, image: &[u8]) {
        self.see_cut(image, self.some_cut());
    }

    fn some_cut(&self) -> Option<Cut> {
        if self.images.is_multiple_of(8) { Some(Cut::Random) } else { None }
    }

    /// The image gets a manufacturing block of its own first, as far as it reaches: one with an ASCII part number. One in eight gets a base CRC
    /// that fits.
    fn see_cut(&mut self, image: &[u8], cut: Option<Cut>) {
        let mut copy = std::mem::take(&mut self.image);
        copy.clear();
        copy.extend_from_slice(image);
        let mut rng = self.rng();
        put_block(&mut copy, &mut rng);
        if rng.below(8) == 0 {
            seal(&mut copy);
        }
        self.judge(&copy, cut, &mut rng);
        self.image = copy;
    }

    /// An image that has its block, and its base CRC.
    fn see_block(&mut self, image: &[u8]) {
        self.judge(image, self.some_cut(), &mut self.rng());
    }

    /// What is random about the image at hand beside itself.
    fn rng(&self) -> Rng {
        Rng::new(!self.seed, self.images)
    }

    fn judge(&mut self, image: &[u8], cut: Option<Cut>, rng: &mut Rng) {
        assert!(image.iter().skip(PROFILES).all(|&b| b == 0), "an image may have a vendor profile");
        let ours = Answers::of_image(image, rng.pick(&manufacturing::STRICT));
        match compare::compare(image, &ours) {
            Ok(Verdict::Same) => {}
            Ok(Verdict::ShortImage) => self.short += 1,
            Ok(Verdict::OtherType) => self.other += 1,
            Err(item) => self.difference(image, &item),
        }
        let first = ours.under_edition_1(image);
        let added = editions::compare(image, &ours, &first).unwrap_or_else(|item| {
            self.difference(image, &item);
            None
        });
        if let Some(rate) = added {
            self.added[rate] += 1;
        }
        match manufacturing::compare(image, &ours.block) {
            Ok(manufacturing::Verdict::Same) => {}
            Ok(manufacturing::Verdict::PartCut) => self.part_cut += 1,
            Ok(manufacturing::Verdict::NotAscii) => self.not_ascii += 1,
            Ok(manufacturing::Verdict::ZeroPadded) => self.zero_padded += 1,
            Err(item) => self.difference(image, &item),
        }
        match crc::compare(image, ours.crc, &mut self.copies, rng) {
            Ok((verdict, reads)) => {
                self.covered_cut += u64::from(verdict == crc::Verdict::CoveredCut);
                if let Some(sound) = reads {
                    self.reads[sound as usize] += 1;
                }
            }
            Err(item) => self.difference(image, &item),
        }
        if let Some(cut) = cut
            && image.len() <= ours::IMAGE_MAX
        {
            self.fed += 1;
            if let Some(n) = self.crcs_fed.get_mut(ours.crc as usize) {
                *n += 1;
            }
            if let Some(rate) = added {
                self.added_fed[rate] += 1;
            }
            for whole in [&ours, &first] {
                if let Err(item) = compare::feed(image, cut, rng, whole) {
                    self.difference(image, &item);
                }
            }
        }
        self.tally(&ours);
        self.images += 1;
        if self.images.is_multiple_of(1024) {
            self.progress();
        }
    }

    fn tally(&mut self, ours: &Answers) {
        let (flags, codes) = ours.outline();
        self.identities += u64::from(flags & 1);
        self.timings += u64::from(flags >> 1 & 1);
        for code in codes {
            self.findings[usize::from(code.min(9))] += 1;
        }
        if let (Some(len), strict) = ours.block.outline() {
            self.parts[len.min(30)] += 1;
            self.strict += u64::from(strict);
        }
        if let Some(n) = self.crcs.get_mut(ours.crc as usize) {
            *n += 1;
        }
    }

    /// How many manufacturing blocks decoded.
    fn blocks(&self) -> u64 {
        self.parts.iter().sum()
    }

    fn difference(&mut self, image: &[u8], item: &str) {
        self.differences += 1;
        if self.differences <= PRINTED {
            self.clear();
            let index = self.images - self.family_start;
            eprintln!("judge: DIFFERENCE: {} {index}, seed {}, {} bytes: {item}", self.family, self.seed, image.len());
        }
        if self.differences == ENOUGH {
            eprintln!("judge: {ENOUGH} differences in {} images, and the rest was not judged", self.images + 1);
            std::process::exit(1);
        }
    }

    /// On a terminal one line that is updated, elsewhere a line now and then.
    fn progress(&mut self) {
        let terminal = std::io::stderr().is_terminal();
        if self.shown.elapsed() < Duration::from_secs(if terminal { 1 } else { 20 }) {
            return;
        }
        self.shown = Instant::now();
        let end = if terminal { "\r" } else { "\n" };
        eprint!("judge: {}: {} of {} images, {} differences{end}", self.family, self.images, self.wanted, self.differences);
    }

    fn clear(&self) {
        if std::io::stderr().is_terminal() {
            eprint!("\x1b[2K\r");
        }
    }
}

/// What every family is made from must decode and be without a finding, or nothing would be tried at the edge of it.
fn bases() -> Vec<[u8; PROFILES]> {
    let all = sound_images();
    for image in &all {
        let mut findings = 0;
        spdr::lint(image, &mut |_| findings += 1);
        assert!(spdr::decode_identity_and_base(image).is_ok() && findings == 0, "a base is not sound");
    }
    all
}

/// All values of each byte that identity reads, on every base, long enough with a manufacturing block and without, just, and not.
fn codes(judge: &mut Judge) {
    for base in bases() {
        for offset in [0, 1, 2, 3, 4, 5, 6, 7, 234, 235] {
            for value in 0..=255 {
                let mut image = base;
                image[offset] = value;
                for len in [PROFILES, 512, 236, 235] {
                    judge.see(&image[..len]);
                }
            }
        }
    }
}

/// All values of I/O width and bus width together: the device count.
fn device_counts(judge: &mut Judge) {
    let mut image = bases()[0];
    for width in 0..=255 {
        for bus in 0..=255 {
            image[6] = width;
            image[235] = bus;
            judge.see(&image);
        }
    }
}

/// All lengths up to the most that pieces take, and some past it.
fn lengths(judge: &mut Judge) {
    for base in bases() {
        let mut image = vec![0; 70_000];
        image[..PROFILES].copy_from_slice(&base);
        for len in (0..=ours::IMAGE_MAX).chain([2_049, 4_095, 4_096, 65_535, 65_536, 65_537]) {
            judge.see(&image[..len]);
        }
    }
}

/// Every reserved byte alone, cut around the ends of its region and around itself.
fn reserved_bytes(judge: &mut Judge) {
    let base = bases()[0];
    for (start, len) in RESERVED {
        for offset in start..start + len {
            for value in [1, 0x10, 0x80, 0xFF] {
                let mut image = base;
                image[offset] = value;
                for edge in [start, offset, start + len] {
                    for cut in [edge - 1, edge, edge + 1] {
                        judge.see(&image[..cut]);
                    }
                }
                judge.see(&image);
            }
        }
    }
}

/// Two bytes of one region: the first is to be named.
fn reserved_pairs(judge: &mut Judge) {
    let base = bases()[1];
    for (start, len) in RESERVED {
        for one in start..start + len {
            for two in one + 1..start + len {
                let mut image = base;
                image[one] = 3;
                image[two] = 5;
                judge.see(&image);
            }
        }
    }
}

/// Each cycle time against all pairs of edge values of two times.
fn cycle_times(judge: &mut Judge) {
    for (i, tck) in CYCLE_TIMES.into_iter().enumerate() {
        let mut base = bases()[i % MODULES.len()];
        put16(&mut base, 20, tck);
        let edges = images::edges(tck);
        for (k, one) in TIME_OFFSETS.into_iter().enumerate() {
            for two in TIME_OFFSETS.into_iter().skip(k + 1) {
                for &a in &edges {
                    for &b in &edges {
                        let mut image = base;
                        put16(&mut image, one, a);
                        put16(&mut image, two, b);
                        judge.see(&image);
                    }
                }
            }
        }
    }
}

/// Every cycle time there is (the data rate, the ladder), and every tAA (the CAS latency).
fn every_time(judge: &mut Judge) {
    for offset in [20, 30] {
        let mut image = bases()[0];
        for time in 0..=65_535 {
            put16(&mut image, offset, time);
            judge.see(&image);
        }
    }
}

/// Every cycle time where the two editions of the ladder differ, and around, on every base: as long as pieces can be, the base block alone, with timings
/// and no identity, and without timings, with the cycle time or without.
fn fast_times(judge: &mut Judge) {
    let mut image = [0; ours::IMAGE_MAX];
    for base in bases() {
        image[..PROFILES].copy_from_slice(&base);
        for tck in 210..=330 {
            put16(&mut image, 20, tck);
            for len in [ours::IMAGE_MAX, 512, 94, 93, 20] {
                judge.see(&image[..len]);
            }
        }
    }
}

/// Each bit of the CAS set alone against each CAS latency that a time of 16 bits can have at this cycle time.
fn cas_bits(judge: &mut Judge) {
    let mut image = bases()[0];
    for bit in 0..40 {
        put_cas(&mut image, 1 << bit);
        for cl in 0..=65_535 / 416 {
            put16(&mut image, 30, cl * 416);
            judge.see(&image);
        }
    }
}

/// The burst of sixteen bytes at an offset comes twice, not at all, or after its neighbour.
fn burst(image: &[u8], at: usize, kind: usize) -> Vec<u8> {
    let (one, two) = (at + 16, image.len().min(at + 32));
    match kind {
        0 => [&image[..one], &image[at..]].concat(),
        1 => [&image[..at], &image[one..]].concat(),
        2 => [&image[..at], &image[one..two], &image[at..one], &image[two..]].concat(),
        _ => [&image[..one], &image[at..image.len() - 16]].concat(),
    }
}

/// Bursts at every byte offset (so at every sixteenth too), whole and in pieces that are cut where the burst is.
fn bursts(judge: &mut Judge) {
    const LEN: usize = 576;
    for base in &bases()[..4] {
        for at in 0..=LEN - 16 {
            for kind in 0..4 {
                let image = burst(&base[..LEN], at, kind);
                judge.see_cut(&image, Some(Cut::Bursts(at % 16)));
            }
        }
        judge.see_cut(&base[..LEN], Some(Cut::Whole));
    }
}

/// Every single bit of a sound block changed, the two bytes of its CRC among them: each must be seen.
fn single_bits(judge: &mut Judge) {
    for base in bases() {
        let mut image = base;
        let block = &mut image[..crc::NEEDS];
        judge.see_block(block);
        for bit in 0..8 * crc::NEEDS {
            block[bit / 8] ^= 1 << (bit % 8);
            if ours::crc(block) != 0 {
                judge.difference(block, "CRC: one changed bit is not seen");
            }
            judge.see_block(block);
            block[bit / 8] ^= 1 << (bit % 8);
        }
    }
}

/// A burst of a sound block comes twice, at every byte offset. What the CRC sees is held to the Rust's verdict and counted.
fn sound_bursts(judge: &mut Judge) {
    for base in bases() {
        let block = &base[..crc::NEEDS];
        for at in 0..=crc::NEEDS - 16 {
            let image = burst(block, at, 0);
            if image[..crc::NEEDS] != *block {
                judge.bent += 1;
                judge.bent_seen += u64::from(ours::crc(&image) == 0);
            }
            judge.judge(&image, Some(Cut::Bursts(at % 16)), &mut judge.rng());
        }
    }
}

/// All pairs of the two date bytes, on images that just hold their block.
fn dates(judge: &mut Judge) {
    let mut image = bases()[0];
    for year in 0..=255 {
        for week in 0..=255 {
            put_block(&mut image, &mut judge.rng());
            image[DATE].copy_from_slice(&[year, week]);
            judge.see_block(&image[..BLOCK.end]);
        }
    }
}

/// Part numbers that are not ASCII alone: every byte as the last of so many, spaces or zero bytes behind it. Some images end with their part number.
fn part_numbers(judge: &mut Judge) {
    let mut image = bases()[0];
    for (len, pad) in [(PROFILES, b' '), (PROFILES, 0), (PART.end, b' ')] {
        for count in 1..=PART.len() {
            for last in 0..=255 {
                put_block(&mut image, &mut judge.rng());
                let part = &mut image[PART];
                part[count - 1] = last;
                part[count..].fill(pad);
                judge.see_block(&image[..len]);
            }
        }
    }
}

/// Lengths at which something changes.
const BOUNDARIES: [usize; 17] = [0, 16, 30, 94, 128, 192, 230, 236, 240, 510, 512, 521, 551, 555, 640, 1024, 2048];

fn some_length(rng: &mut Rng) -> usize {
    match rng.below(10) {
        0..2 => 512,
        2..5 => PROFILES,
        5 => BLOCK.start - 1 + rng.below(BLOCK.len() + 3),
        6..8 => (rng.pick(&BOUNDARIES) + rng.below(5)).saturating_sub(2),
        8 => 236 + rng.below(405),
        _ => rng.below(ours::IMAGE_MAX + 1),
    }
}

/// A place in the full product of cycle times and the edge values of all five times.
fn product(rng: &mut Rng, image: &mut [u8]) {
    let tck = rng.pick(&CYCLE_TIMES);
    put16(image, 20, tck);
    let edges = images::edges(tck);
    for offset in TIME_OFFSETS {
        put16(image, offset, rng.pick(&edges));
    }
    if rng.below(2) == 0 {
        // tRC near tRAS + tRP, as it would be by chance too seldom
        let sum = u16::from_le_bytes([image[34], image[35]]).wrapping_add(u16::from_le_bytes([image[36], image[37]]));
        put16(image, 38, sum.wrapping_add(rng.below(3) as u16).wrapping_sub(1));
    }
    match rng.below(4) {
        0 => put_cas(image, u64::MAX),
        1 => put_cas(image, rng.next()),
        _ => {}
    }
}

/// Bytes without a plan, of which half have codes that decode.
fn noise(rng: &mut Rng, image: &mut [u8]) {
    let keep = rng.below(2) == 0;
    for (i, byte) in image.iter_mut().enumerate() {
        let fixed = if keep { i < 8 || i == 234 || i == 235 } else { i == 2 };
        if !fixed {
            *byte = rng.byte();
        }
    }
}

/// A fast cycle time; of half of the images tAA, tRCD and tRP are whole numbers of it.
fn fast(rng: &mut Rng, image: &mut [u8]) {
    let tck = rng.pick(&FAST_TIMES);
    put16(image, 20, tck);
    if rng.below(2) == 0 {
        for offset in [30, 32, 34] {
            put16(image, offset, tck * (20 + 2 * rng.below(40) as u16));
        }
    }
}

/// Random images, each made of the seed and its number. One in sixteen gets a fast cycle time besides, since few have one by chance.
fn random(judge: &mut Judge) {
    let bases = bases();
    let mut image = vec![0; ours::IMAGE_MAX + 8];
    for number in 0.. {
        if judge.images >= judge.wanted {
            return;
        }
        let mut rng = Rng::new(judge.seed, number);
        image.fill(0);
        image[..PROFILES].copy_from_slice(&rng.pick(&bases));
        let len = some_length(&mut rng);
        let known = &mut image[..PROFILES];
        match rng.below(16) {
            0..9 => {
                let changes = 1 + rng.below(12);
                images::damaged(known, changes, &mut rng)
            }
            9..13 => product(&mut rng, known),
            13 => noise(&mut rng, known),
            _ => {
                let bent = burst(known, rng.below(PROFILES - 32), 2 * rng.below(2) + 1);
                known[..bent.len()].copy_from_slice(&bent);
            }
        }
        if rng.below(16) == 0 {
            fast(&mut rng, known);
        }
        judge.see(&image[..len]);
    }
}

/// What the images left untried: nothing was compared where nothing was found. Code 9 has no image: package and die count are read from
/// the same bits.
fn untried(judge: &Judge) -> Vec<String> {
    let seen = [
        ("an identity", judge.identities),
        ("timings", judge.timings),
        ("an image in pieces", judge.fed),
        ("row 1 of docs/DIFFERENCES.md", judge.short),
        ("row 2 of docs/DIFFERENCES.md", judge.other),
        ("row 6 of docs/DIFFERENCES.md", judge.part_cut),
        ("row 7 of docs/DIFFERENCES.md", judge.not_ascii),
        ("row 8 of docs/DIFFERENCES.md", judge.zero_padded),
        ("row 9 of docs/DIFFERENCES.md", judge.covered_cut),
        ("a date that the strict mode takes", judge.strict),
        ("a date that it refuses", judge.blocks() - judge.strict),
        ("a CRC that fits", judge.crcs[1]),
        ("a CRC that does not", judge.crcs[0]),
        ("a CRC that fits, in pieces", judge.crcs_fed[1]),
        ("a CRC that does not, in pieces", judge.crcs_fed[0]),
        ("a burst twice that the CRC sees", judge.bent_seen),
        ("two reads that are sound", judge.reads[Sound::Both as usize]),
        ("a first read that is sound", judge.reads[Sound::First as usize]),
        ("a second read that is sound", judge.reads[Sound::Second as usize]),
        ("two reads of which neither is", judge.reads[Sound::Neither as usize]),
    ];
    let codes = (1..9).map(|code| (format!("code {code}"), judge.findings[code]));
    let rates = editions::ADDED.into_iter().zip(judge.added.into_iter().zip(judge.added_fed));
    let added = rates.flat_map(|(rate, (whole, fed))| {
        let more = format!("a finding more under edition 1 at {rate} MT/s");
        [(more.clone(), whole), (more + ", in pieces", fed)]
    });
    let parts = judge.parts.into_iter().enumerate().map(|(len, n)| (format!("a part number of {len} characters"), n));
    let unfit = judge.unfit.iter().map(|family| (format!("a CRC that fits among the {family}"), 0));
    let all = seen.into_iter().map(|(what, n)| (what.to_string(), n)).chain(codes).chain(added).chain(parts).chain(unfit);
    all.filter(|(_, n)| *n == 0).map(|(what, _)| what).collect()
}

fn arguments() -> Option<(u64, u64)> {
    let mut args = std::env::args().skip(1);
    let wanted = args.next()?.parse().ok()?;
    let seed = args.next().map_or(Some(1), |s| s.parse().ok())?;
    if args.next().is_some() { None } else { Some((wanted, seed)) }
}

fn main() -> ExitCode {
    let Some((wanted, seed)) = arguments() else {
        eprintln!("usage: judge IMAGES [SEED]");
        return ExitCode::from(2);
    };
    let mut judge = Judge::new(wanted, seed);
    judge.family("codes", codes);
    judge.family("device counts", device_counts);
    judge.family("lengths", lengths);
    judge.family("reserved bytes", reserved_bytes);
    judge.family("reserved pairs", reserved_pairs);
    judge.family("cycle times", cycle_times);
    judge.family("every time", every_time);
    judge.family("fast times", fast_times);
    judge.family("CAS bits", cas_bits);
    judge.family("bursts", bursts);
    judge.family("single bits", single_bits);
    judge.family("bursts twice in a sound block", sound_bursts);
    judge.family("dates", dates);
    judge.family("part numbers", part_numbers);
    judge.family("random", random);
    let codes: Vec<String> = (1..10).map(|code| format!("{} of code {code}", judge.findings[code])).collect();
    eprintln!("judge: {} identities and {} timings decoded; findings: {}", judge.identities, judge.timings, codes.join(", "));
    let rates: Vec<String> = editions::ADDED.iter().zip(judge.added).map(|(rate, n)| format!("{n} at {rate} MT/s")).collect();
    eprintln!("judge: findings that edition 1 has more: {}", rates.join(", "));
    eprintln!("judge: {} manufacturing blocks decoded, {} of them in the strict mode too", judge.blocks(), judge.strict);
    let [both, first, second, neither] = judge.reads;
    eprintln!(
        "judge: {} base CRCs fit and {} do not; of two reads both were sound {both} times, the first {first}, the second {second}, \
         neither {neither}; of {} bursts that changed a sound block by coming twice the CRC sees {}",
        judge.crcs[1], judge.crcs[0], judge.bent, judge.bent_seen
    );
    println!(
        "judge: {} images, {} of them in pieces too, {} with a finding more under edition 1, {} listed (row 1, short images), \
         {} listed (row 2, other device types), {} listed (row 6, cut part numbers), {} listed (row 7, part numbers not ASCII), \
         {} listed (row 8, zero bytes behind them), {} listed (row 9, CRCs of short images), {} differences, seed {}, {} s",
        judge.images,
        judge.fed,
        judge.added.iter().sum::<u64>(),
        judge.short,
        judge.other,
        judge.part_cut,
        judge.not_ascii,
        judge.zero_padded,
        judge.covered_cut,
        judge.differences,
        judge.seed,
        judge.started.elapsed().as_secs()
    );
    if judge.differences != 0 {
        return ExitCode::FAILURE;
    }
    let untried = untried(&judge);
    if !untried.is_empty() {
        eprintln!("judge: no image had {}: they try too little", untried.join(", nor "));
        return ExitCode::from(2);
    }
    ExitCode::SUCCESS
}
