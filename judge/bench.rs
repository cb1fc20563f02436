//! The speed of the C library against the Rust linter spdr: the same images, one program, rounds that alternate, every finding
//! copied out on both sides. Prints tables in Markdown. Usage: bench, or bench FAMILY PASSES: one family so often, for callgrind.

mod images;
mod ours;
mod stack;

use images::{PROFILES, Rng, STORED_CRC, put_block, put16, seal};
use ours::{EDITION_1, EDITION_2};
use spdr::Finding;
use std::hint::black_box;
use std::process::Command;
use std::time::Duration;

const LEN: usize = 512;
const FIXED: usize = 512;
const SHUFFLED: usize = 4096;
const ROUNDS: usize = 25;
const ROUND: Duration = Duration::from_millis(20);

type Image = [u8; LEN];
/// An image with a manufacturing block.
type Labelled = [u8; PROFILES];

/// Sound images with 0 to 8 changes each.
fn mixed(count: usize) -> Vec<Image> {
    let bases = images::sound_images();
    let one = |i| {
        let mut rng = Rng::new(5, i as u64);
        let mut image: Image = rng.pick(&bases)[..LEN].try_into().unwrap();
        let changes = rng.below(9);
        images::damaged(&mut image, changes, &mut rng);
        image
    };
    (0..count).map(one).collect()
}

/// Mixed images with a manufacturing block behind them, its part number in ASCII.
fn labelled(count: usize) -> Vec<Labelled> {
    let one = |(i, front): (usize, &Image)| {
        let mut image = [0; PROFILES];
        image[..LEN].copy_from_slice(front);
        put_block(&mut image, &mut Rng::new(9, i as u64));
        image
    };
    mixed(count).iter().enumerate().map(one).collect()
}

/// Mixed images, of which every other has a base CRC that fits.
fn sealed(count: usize) -> Vec<Image> {
    let mut images = mixed(count);
    images.iter_mut().step_by(2).for_each(|image| seal(image));
    images
}

/// Sound images that differ in bytes that have no rule.
fn clean(count: usize) -> Vec<Image> {
    let bases = images::sound_images();
    let one = |i| {
        let mut rng = Rng::new(7, i as u64);
        let mut image: Image = rng.pick(&bases)[..LEN].try_into().unwrap();
        put16(&mut image, 40, rng.next() as u16);
        put16(&mut image, 42, rng.next() as u16);
        image
    };
    (0..count).map(one).collect()
}

/// The reports of mixed images, each at the front of its place.
fn reports(count: usize) -> Vec<Image> {
    let one = |image: &Image| {
        let mut report = [0; LEN];
        ours::lint(image, EDITION_2, &mut report);
        report
    };
    mixed(count).iter().map(one).collect()
}

// --- What is timed: one call on one image. The buffers that are filled are made once, before --------------------------------

/// Which edition it is the compiler does not see.
fn lint_ours(edition: u32) -> impl FnMut(&Image) {
    let edition = black_box(edition);
    let mut report = [0; ours::REPORT_MAX];
    move |image| {
        black_box(ours::lint(black_box(image), edition, black_box(&mut report)));
        black_box(&report);
    }
}

fn lint_rust() -> impl FnMut(&Image) {
    const NONE: Finding = Finding::NonStandardDataRate { data_rate_mt_s: 0 };
    let mut found = [NONE; 16];
    move |image| {
        let mut count = 0;
        spdr::lint(black_box(image), &mut |f| {
            found[count & 15] = f;
            count += 1;
        });
        black_box((&found, count));
    }
}

fn identity_ours() -> impl FnMut(&Image) {
    let mut out = [0; 18];
    move |image| {
        black_box(ours::identity(black_box(image), black_box(&mut out)));
        black_box(&out);
    }
}

fn identity_rust() -> impl FnMut(&Image) {
    |image| {
        let _ = black_box(spdr::decode_identity_and_base(black_box(image)));
    }
}

fn timings_ours() -> impl FnMut(&Image) {
    let mut out = [0; 30];
    move |image| {
        black_box(ours::timings(black_box(image), black_box(&mut out)));
        black_box(&out);
    }
}

fn timings_rust() -> impl FnMut(&Image) {
    |image| {
        let _ = black_box(spdr::decode_timings(black_box(image)));
    }
}

fn manufacturing_ours() -> impl FnMut(&Labelled) {
    let mut out = [0; ours::MANUFACTURING_COUNT];
    move |image| {
        black_box(ours::manufacturing(black_box(image), 0, black_box(&mut out)));
        black_box(&out);
    }
}

fn manufacturing_rust() -> impl FnMut(&Labelled) {
    |image| {
        let _ = black_box(spdr::decode_manufacturing(black_box(image)));
    }
}

fn crc_ours() -> impl FnMut(&Image) {
    |image| {
        black_box(ours::crc(black_box(image)));
    }
}

/// The CRC of the bytes that are covered, without a look at the one that is stored.
fn crc_rust() -> impl FnMut(&Image) {
    |image| {
        black_box(spdr::crc16(&black_box(image)[..STORED_CRC]));
    }
}

fn verify_rust() -> impl FnMut(&Image) {
    |image| {
        let _ = black_box(spdr::verify_base_crc(black_box(image)));
    }
}

/// A report read into numbers. The Rust has no report.
fn report_ours() -> impl FnMut(&Image) {
    let mut out = [0; ours::REPORT_NUMBERS];
    move |report| {
        black_box(ours::report(black_box(report), black_box(&mut out)));
        black_box(&out);
    }
}

/// The whole image in bursts of sixteen, then lint.
fn bursts_ours(edition: u32) -> impl FnMut(&Image) {
    let edition = black_box(edition);
    let mut state = [0; ours::STATE_SIZE];
    let mut report = [0; ours::REPORT_MAX];
    move |image| {
        black_box(ours::pieces_fresh(black_box(&mut state), edition));
        for (k, burst) in black_box(image).chunks(16).enumerate() {
            black_box(ours::pieces_feed(black_box(&mut state), 16 * k, black_box(burst)));
        }
        black_box(ours::pieces_lint(black_box(&state), black_box(&mut report)));
        black_box(&report);
    }
}

/// The loop's own share.
fn nothing<I>() -> impl FnMut(&I) {
    |image| {
        black_box(image);
    }
}

// --- Time --------------------------------------------------------------------------------------------------------------------

#[repr(C)]
struct Timespec {
    seconds: i64,
    nanoseconds: i64,
}

unsafe extern "C" {
    fn clock_gettime(clock: i32, at: *mut Timespec) -> i32;
}

/// The processor time of this thread, so that what else runs on the machine is not counted.
fn thread_time() -> Duration {
    const CLOCK_THREAD_CPUTIME_ID: i32 = 3;
    let mut at = Timespec { seconds: 0, nanoseconds: 0 };
    // SAFETY: the place is valid, and laid out as 64-bit Linux has it.
    let failed = unsafe { clock_gettime(CLOCK_THREAD_CPUTIME_ID, &mut at) };
    assert!(failed == 0, "no clock for the time of a thread");
    Duration::new(at.seconds as u64, at.nanoseconds as u32)
}

#[inline(never)]
fn timed<I>(images: &[I], order: &[u32], call: &mut impl FnMut(&I)) -> Duration {
    let start = thread_time();
    for &i in order {
        call(&images[i as usize]);
    }
    thread_time() - start
}

/// The images in their order over and over, or in an order that is never the same again.
fn order(images: usize, calls: usize, shuffled: bool, rng: &mut Rng) -> Vec<u32> {
    let mut all = Vec::with_capacity(calls + images);
    while all.len() < calls {
        let start = all.len();
        all.extend(0..images as u32);
        if shuffled {
            for i in (1..images).rev() {
                all.swap(start + i, start + rng.below(i + 1));
            }
        }
    }
    all.truncate(calls);
    all
}

struct Figures {
    ratios: Vec<f64>,
    best: f64,
    first_ns: f64,
    second_ns: f64,
}

fn median(sorted: &[f64]) -> f64 {
    sorted[sorted.len() / 2]
}

fn sorted(mut all: Vec<f64>) -> Vec<f64> {
    all.sort_by(f64::total_cmp);
    all
}

/// Rounds of the first call and of the second, in turns, each pair in one order.
fn compare<I>(images: &[I], shuffled: bool, mut first: impl FnMut(&I), mut second: impl FnMut(&I)) -> Figures {
    let (first, second) = (&mut first, &mut second);
    let mut rng = Rng::new(11, 0);
    let trial = order(images.len(), SHUFFLED, shuffled, &mut rng);
    timed(images, &trial, first);
    timed(images, &trial, second);
    let slower = timed(images, &trial, first).max(timed(images, &trial, second));
    let calls = (ROUND.as_secs_f64() / slower.as_secs_f64() * SHUFFLED as f64) as usize;
    let mut pairs = Vec::new();
    for _ in 0..ROUNDS {
        let order = order(images.len(), calls, shuffled, &mut rng);
        let a = timed(images, &order, first).as_secs_f64();
        let b = timed(images, &order, second).as_secs_f64();
        pairs.push((a, b));
    }
    let firsts = sorted(pairs.iter().map(|p| p.0).collect());
    let seconds = sorted(pairs.iter().map(|p| p.1).collect());
    let per_call = 1e9 / calls as f64;
    Figures {
        ratios: sorted(pairs.iter().map(|p| p.0 / p.1).collect()),
        best: firsts[0] / seconds[0],
        first_ns: median(&firsts) * per_call,
        second_ns: median(&seconds) * per_call,
    }
}

// --- Instructions ------------------------------------------------------------------------------------------------------------

/// Runs one family so often, for callgrind.
fn run_family(name: &str, passes: usize) -> bool {
    match name {
        "lint-mixed-ours" => run(mixed, passes, lint_ours(EDITION_2)),
        "lint-mixed-1-ours" => run(mixed, passes, lint_ours(EDITION_1)),
        "lint-mixed-rust" | "lint-mixed-1-rust" => run(mixed, passes, lint_rust()),
        "lint-clean-ours" => run(clean, passes, lint_ours(EDITION_2)),
        "lint-clean-1-ours" => run(clean, passes, lint_ours(EDITION_1)),
        "lint-clean-rust" | "lint-clean-1-rust" => run(clean, passes, lint_rust()),
        "identity-ours" => run(mixed, passes, identity_ours()),
        "identity-rust" => run(mixed, passes, identity_rust()),
        "timings-ours" => run(mixed, passes, timings_ours()),
        "timings-rust" => run(mixed, passes, timings_rust()),
        "manufacturing-ours" => run(labelled, passes, manufacturing_ours()),
        "manufacturing-rust" => run(labelled, passes, manufacturing_rust()),
        "crc-ours" | "verify-ours" => run(sealed, passes, crc_ours()),
        "crc-rust" => run(sealed, passes, crc_rust()),
        "verify-rust" => run(sealed, passes, verify_rust()),
        "bursts-ours" => run(mixed, passes, bursts_ours(EDITION_2)),
        "bursts-1-ours" => run(mixed, passes, bursts_ours(EDITION_1)),
        "report-ours" => run(reports, passes, report_ours()),
        "nothing" => run(mixed, passes, nothing()),
        "nothing-labelled" => run(labelled, passes, nothing()),
        _ => return false,
    }
    true
}

fn run<I>(images: fn(usize) -> Vec<I>, passes: usize, mut call: impl FnMut(&I)) {
    let order = order(FIXED, passes * FIXED, false, &mut Rng::new(0, 0));
    timed(&images(FIXED), &order, &mut call);
}

fn collected(name: &str, passes: usize) -> Option<f64> {
    let me = std::env::current_exe().ok()?;
    let said = Command::new("valgrind")
        .args(["--tool=callgrind", "--callgrind-out-file=/dev/null"])
        .arg(me)
        .args([name, &passes.to_string()])
        .output()
        .ok()?;
    let text = String::from_utf8_lossy(&said.stderr).into_owned();
    let line = text.lines().find(|l| l.contains("Collected"))?;
    line.rsplit(' ').next()?.parse().ok()
}

/// Instructions of one call: what sixteen more passes take, by the number of calls.
fn instructions(name: &str) -> Option<f64> {
    Some((collected(name, 20)? - collected(name, 4)?) / (16 * FIXED) as f64)
}

fn instruction_cell(name: &str, own: Option<f64>) -> String {
    match (instructions(name), own) {
        (Some(n), Some(own)) => format!("{:.0}", n - own),
        _ => "no valgrind".into(),
    }
}

// --- Tables ------------------------------------------------------------------------------------------------------------------

fn first_line(program: &str, args: &[&str], with: &str) -> String {
    let said = Command::new(program).args(args).output().map(|o| String::from_utf8_lossy(&o.stdout).into_owned());
    let text = said.unwrap_or_default();
    let line = text.lines().find(|l| l.contains(with)).unwrap_or("unknown");
    line.rsplit(':').next().unwrap_or(line).trim().to_string()
}

fn print_machine() {
    println!("- machine: {}, {}", first_line("lscpu", &[], "Model name"), std::env::consts::ARCH);
    println!("- compiler of the Rust and of the driver: {}, `-C opt-level=3`", first_line("rustc", &["--version"], "rustc"));
    let total: usize = mixed(FIXED).iter().map(findings).sum();
    println!(
        "- mixed images: {FIXED} sound ones with 0 to 8 changes each, {:.1} findings on average; clean ones have none",
        total as f64 / FIXED as f64
    );
    println!(
        "- edition 2, which has the Rust's ladder, unless a row says edition 1; under that {} of {FIXED} mixed images and {} of {FIXED} clean \
         ones have a finding more than the Rust's",
        more_findings(&mixed(FIXED)),
        more_findings(&clean(FIXED))
    );
    println!(
        "- manufacturing: the mixed images with a block behind them, {PROFILES} bytes in all; part numbers of 0 to 30 ASCII characters: ours \
         hands back the length of one without its spaces, the Rust the text"
    );
    println!(
        "- crc: the mixed images, every other with a base CRC that fits; ours reckons it over {STORED_CRC} bytes and holds it to the one that is \
         stored, and so does the Rust's `verify_base_crc`; its `crc16` only reckons"
    );
    println!(
        "- fixed: {FIXED} images in one order over and over; shuffled: {SHUFFLED} images, an order that is new in each round"
    );
    println!(
        "- {ROUNDS} rounds of about {} ms for each side, in turns; a ratio is that of two neighbouring rounds",
        ROUND.as_millis()
    );
    println!("- times are processor time of the one thread; instructions are callgrind's, without those of the bench's own loop");
    println!(
        "- ours writes a report or a list of numbers; the Rust's findings are stored by its sink, its records handed back by value"
    );
    println!("- stack: bytes from the caller's end to the deepest byte that was written, the most over the mixed images");
}

fn findings(image: &Image) -> usize {
    let mut count = 0;
    spdr::lint(image, &mut |_| count += 1);
    count
}

/// How many findings ours writes.
fn written(image: &Image, edition: u32) -> usize {
    let mut report = [0; ours::REPORT_MAX];
    ours::lint(image, edition, &mut report);
    usize::from(report[4])
}

/// How many images have a finding more under edition 1.
fn more_findings(images: &[Image]) -> usize {
    images.iter().filter(|image| written(image, EDITION_1) > written(image, EDITION_2)).count()
}

/// Both sides do the same work: clean images have no finding, and ours writes as many of a mixed one as the Rust finds. Where a change made the image one
/// of another device type that the Rust decodes (docs/DIFFERENCES.md, row 2), ours has no identity to find a fault in.
fn check_images() {
    assert!(clean(SHUFFLED).iter().all(|image| findings(image) == 0), "a clean image has a finding");
    for image in &mixed(SHUFFLED) {
        let other_device = matches!(image[2], 0x0B | 0x0C | 0x13);
        let (here, there) = (written(image, EDITION_2), findings(image));
        assert!(here == there || (other_device && here < there), "an image has other findings than the Rust's: see the judge");
        assert!(
            (here..=here + 1).contains(&written(image, EDITION_1)),
            "an image has other findings under edition 1: see the judge"
        );
    }
    // Here spaces alone pad a part number, and both sides have it as long.
    let mut out = [0; ours::MANUFACTURING_COUNT];
    for image in &labelled(SHUFFLED) {
        let answer = ours::manufacturing(image, 0, &mut out);
        let both = spdr::decode_manufacturing(image)
            .is_ok_and(|m| (m.serial_number.0, m.part_number.len()) == (out[5], out[10] as usize));
        assert!(answer == 11 && both, "an image has another manufacturing block than the Rust's: see the judge");
    }
    // Both sides reckon all of it: of every other image it fits, by either of the Rust's calls, and of the others, which have a byte changed, not.
    for (i, image) in sealed(SHUFFLED).iter().enumerate() {
        let fits = spdr::verify_base_crc(image).is_ok_and(|s| s.matches && s.computed == spdr::crc16(&image[..STORED_CRC]));
        assert!(ours::crc(image) == i32::from(fits), "an image has another CRC than the Rust's: see the judge");
        assert!(fits || i % 2 == 1, "an image that was sealed has another CRC");
    }
}

/// The cells of a row that are about time.
fn time_cells(f: &Figures) -> String {
    let r = &f.ratios;
    let (low, high) = (r[r.len() / 4], r[3 * r.len() / 4]);
    let spread = format!("{low:.2} to {high:.2} | {:.2} to {:.2}", r[0], r[r.len() - 1]);
    format!("{:.2} | {spread} | {:.2} | {:.0} | {:.0}", median(r), f.best, f.first_ns, f.second_ns)
}

/// One call against the Rust's, in one order and shuffled.
fn print_rows<I>(
    name: &str,
    family: &str,
    images: fn(usize) -> Vec<I>,
    mut ours: impl FnMut(&I),
    mut rust: impl FnMut(&I),
    own: Option<f64>,
) {
    let images = images(SHUFFLED);
    let fixed = time_cells(&compare(&images[..FIXED], false, &mut ours, &mut rust));
    let counts = (instruction_cell(&format!("{family}-ours"), own), instruction_cell(&format!("{family}-rust"), own));
    println!("| {name}, fixed | {fixed} | {} | {} |", counts.0, counts.1);
    let shuffled = time_cells(&compare(&images, true, &mut ours, &mut rust));
    println!("| {name}, shuffled | {shuffled} | | |");
}

fn print_against_rust(own: Option<f64>) {
    println!(
        "| call | ours / Rust, median | quartiles | range | best of each | ours ns | Rust ns | ours instructions | Rust's |"
    );
    println!("|---|---|---|---|---|---|---|---|---|");
    print_rows("lint, mixed", "lint-mixed", mixed, lint_ours(EDITION_2), lint_rust(), own);
    print_rows("lint, clean", "lint-clean", clean, lint_ours(EDITION_2), lint_rust(), own);
    print_rows("lint, edition 1, mixed", "lint-mixed-1", mixed, lint_ours(EDITION_1), lint_rust(), own);
    print_rows("lint, edition 1, clean", "lint-clean-1", clean, lint_ours(EDITION_1), lint_rust(), own);
    print_rows("identity, mixed", "identity", mixed, identity_ours(), identity_rust(), own);
    print_rows("timings, mixed", "timings", mixed, timings_ours(), timings_rust(), own);
    let labelled_own = instructions("nothing-labelled");
    print_rows("manufacturing", "manufacturing", labelled, manufacturing_ours(), manufacturing_rust(), labelled_own);
    print_rows("crc, 510 bytes", "crc", sealed, crc_ours(), crc_rust(), own);
    print_rows("crc, 510 bytes, against `verify_base_crc`", "verify", sealed, crc_ours(), verify_rust(), own);
    for (edition, named, family) in [(EDITION_2, "", "bursts-ours"), (EDITION_1, ", edition 1", "bursts-1-ours")] {
        let f = compare(&mixed(FIXED), false, bursts_ours(edition), lint_rust());
        println!(
            "| 512 bytes in 32 bursts, then lint{named}, against the Rust's lint of the whole image; mixed, fixed | {} | {} | {} |",
            time_cells(&f),
            instruction_cell(family, own),
            instruction_cell("lint-mixed-rust", own)
        );
    }
}

fn print_bursts(own: Option<f64>) {
    let f = compare(&mixed(FIXED), false, bursts_ours(EDITION_2), lint_ours(EDITION_2));
    println!(
        "| ours alone | in bursts / one call, median | quartiles | range | best of each | bursts ns | one call ns | bursts' instructions |"
    );
    println!("|---|---|---|---|---|---|---|---|");
    println!(
        "| 512 bytes in 32 bursts, then lint; mixed, fixed | {} | {} |",
        time_cells(&f),
        instruction_cell("bursts-ours", own)
    );
}

/// Reading the reports of mixed images. The Rust has nothing beside it, so the second side is the bench's own loop.
fn print_reading(own: Option<f64>) {
    let reports = reports(SHUFFLED);
    let fixed = compare(&reports[..FIXED], false, report_ours(), nothing()).first_ns;
    let shuffled = compare(&reports, true, report_ours(), nothing()).first_ns;
    println!("| ours alone | fixed ns | shuffled ns | instructions |");
    println!("|---|---|---|---|");
    println!("| reading a report; mixed | {fixed:.0} | {shuffled:.0} | {} |", instruction_cell("report-ours", own));
}

/// The arguments of a call on an image, on its report, or on a state.
fn arguments(name: &str, edition: u32, image: &Labelled, report: &Image, state: &mut [u8], out: &mut [u32]) -> [usize; 5] {
    let at = state.as_mut_ptr() as usize;
    // So many places in each element size: the buffer is long enough in the widest.
    let filled = out.as_mut_ptr() as usize;
    match name {
        "roostcord_lint" => [image.as_ptr() as usize, image.len(), edition as usize, filled, out.len()],
        "roostcord_report" => [report.as_ptr() as usize, LEN, filled, out.len(), 0],
        "roostcord_pieces_fresh" => [at, state.len(), edition as usize, 0, 0],
        "roostcord_pieces_taken" | "roostcord_pieces_crc" => [at, state.len(), 0, 0, 0],
        "roostcord_pieces_feed" => [at, state.len(), LEN - 16, image[LEN - 16..].as_ptr() as usize, 16],
        "roostcord_crc" => [image.as_ptr() as usize, image.len(), 0, 0, 0],
        // Neither read is sound: a mixed image seldom has a base CRC that fits, and a report none.
        "roostcord_sound_read" => [image.as_ptr() as usize, image.len(), report.as_ptr() as usize, LEN, 0],
        "roostcord_manufacturing" => [image.as_ptr() as usize, image.len(), 0, filled, out.len()],
        "roostcord_pieces_manufacturing" => [at, state.len(), 0, filled, out.len()],
        _ if name.starts_with("roostcord_pieces") => [at, state.len(), filled, out.len(), 0],
        _ => [image.as_ptr() as usize, image.len(), filled, out.len(), 0],
    }
}

/// The most stack of each call over the mixed images with a block, under either edition. A state has taken all of its image, or all before the burst that
/// it is fed.
fn print_stack() {
    let mut room = stack::Stack::new();
    let symbols = ours::symbols();
    let mut most = [0; ours::SYMBOLS];
    let images = labelled(FIXED);
    let reports = reports(FIXED);
    for edition in [EDITION_1, EDITION_2] {
        for (image, report) in images.iter().zip(&reports) {
            for (most, (name, function)) in most.iter_mut().zip(symbols) {
                let mut state = [0; ours::STATE_SIZE];
                let mut out = [0; ours::REPORT_MAX];
                let taken = if name == "roostcord_pieces_feed" { LEN - 16 } else { image.len() };
                let ready = || {
                    ours::pieces_fresh(&mut state, edition);
                    ours::pieces_feed(&mut state, 0, &image[..taken]);
                    stack::Call { function, arguments: arguments(name, edition, image, report, &mut state, &mut out) }
                };
                // SAFETY: the arguments are those of station/roostcord.h, and nothing else uses the buffers meanwhile.
                *most = (*most).max(unsafe { room.used(ready) });
                black_box((&state, &out));
            }
        }
    }
    println!("| call | stack, bytes |");
    println!("|---|---|");
    for ((name, _), bytes) in symbols.into_iter().zip(most) {
        println!("| `{name}` | {bytes} |");
    }
}

fn main() {
    let args: Vec<String> = std::env::args().skip(1).collect();
    match &args[..] {
        [] => {}
        [name, passes] if passes.parse().is_ok_and(|n| run_family(name, n)) => return,
        _ => {
            eprintln!("usage: bench, or bench FAMILY PASSES");
            std::process::exit(2);
        }
    }
    check_images();
    let own = instructions("nothing");
    print_machine();
    println!();
    print_against_rust(own);
    println!();
    print_bursts(own);
    println!();
    print_reading(own);
    println!();
    print_stack();
}
