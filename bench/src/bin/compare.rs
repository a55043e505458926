//! Compares the plain implementation with the proved library on random and damaged inputs.
//!
//! `compare [SEED [CASES [REHEARSALS]]]`

use std::process::ExitCode;

use bench::capi::{self, Failure};
use bench::coverage::{Counts, Coverage};
use bench::generate::rehearsals::{self, Files};
use bench::generate::{frames, large, packets, scripts, sheets};
use bench::plain::frame::Frame;
use bench::plain::packet::Packet;
use bench::plain::refusal::Refusal;
use bench::plain::telegram::LONGEST_MESSAGE;
use bench::plain::{crc, listing, wire};
use bench::random::Random;
use bench::rounds;

const SEED: u64 = 1;
const CASES: u64 = 20_000;
const REHEARSALS: u64 = 2_000;

/// More than any listing of 800 lines has.
const LONGEST_LISTING: usize = 1 << 17;
const FILLING: u8 = 0xA5;

type Generator = fn(&mut Random) -> Vec<u8>;
type Reader = fn(&[u8]) -> i32;

struct Arguments {
    seed: u64,
    cases: u64,
    rehearsals: u64,
}

struct Comparison {
    random: Random,
    coverage: Coverage,
    /// Where the library writes its listings.
    out: Vec<u8>,
    compared: u64,
    differing: u64,
}

fn main() -> ExitCode {
    let Some(arguments) = arguments() else {
        eprintln!("usage: compare [SEED [CASES [REHEARSALS]]]");
        return ExitCode::from(2);
    };
    let Arguments { seed, cases, rehearsals } = arguments;
    println!("seed {seed}, {cases} cases of each cheap kind, {rehearsals} rehearsals");
    let mut comparison = Comparison::new(seed);
    comparison.compare_strings(cases);
    comparison.compare_files(cases);
    comparison.compare_rehearsals(rehearsals);
    comparison.compare_rounds(rehearsals);
    comparison.coverage.print();
    println!("{} compared, {} differ", comparison.compared, comparison.differing);
    ExitCode::from(u8::from(comparison.differing > 0))
}

fn arguments() -> Option<Arguments> {
    let numbers: Result<Vec<u64>, _> = std::env::args().skip(1).map(|word| word.parse()).collect();
    let numbers = numbers.ok().filter(|numbers| numbers.len() <= 3)?;
    let number = |index: usize, usual| numbers.get(index).copied().unwrap_or(usual);
    Some(Arguments {
        seed: number(0, SEED),
        cases: number(1, CASES),
        rehearsals: number(2, REHEARSALS),
    })
}

/// The answer of `falldate_frame_kind`.
fn frame_kind(s: &[u8]) -> i32 {
    Frame::read(s).map_or_else(refused, |frame| match frame {
        Frame::BareDi => 0,
        Frame::Au1 { .. } => 1,
        Frame::Au2 { .. } => 2,
        Frame::Au3 { .. } => 3,
        Frame::Ar { .. } => 4,
        Frame::Di { .. } => 5,
        Frame::Dt { .. } => 6,
    })
}

/// The answer of `falldate_packet_type`.
fn packet_type(s: &[u8]) -> i32 {
    Packet::read(s).map_or_else(refused, |packet| packet.kind as i32)
}

fn refused(refusal: Refusal) -> i32 {
    -i32::from(refusal.number())
}

fn hexadecimal(bytes: &[u8]) -> String {
    bytes.iter().map(|byte| format!("{byte:02X}")).collect()
}

impl Comparison {
    fn new(seed: u64) -> Comparison {
        Comparison {
            random: Random::new(seed),
            coverage: Coverage::default(),
            out: vec![FILLING; LONGEST_LISTING],
            compared: 0,
            differing: 0,
        }
    }

    fn tell(&mut self, kind: &str, tried: u64, agreed: u64) {
        println!("{kind}: {tried} tried, {agreed} agreed");
        self.compared += tried;
        self.differing += tried - agreed;
    }

    fn compare_strings(&mut self, cases: u64) {
        self.compare_codes(cases);
        for (kind, generator) in [
            ("frames, random strings", frames::noise as Generator),
            ("frames, good", frames::good),
            ("frames, damaged", frames::damaged),
        ] {
            self.compare_readers(kind, cases, generator, frame_kind, capi::frame_kind);
        }
        for (kind, generator) in [
            ("packets, random strings", packets::noise as Generator),
            ("packets, good", packets::good),
            ("packets, damaged", packets::damaged),
        ] {
            self.compare_readers(kind, cases, generator, packet_type, capi::packet_type);
        }
    }

    fn compare_codes(&mut self, cases: u64) {
        let mut agreed = 0;
        for _ in 0..cases {
            let word = self.random.number();
            let length = self.random.below(1101);
            let s = self.random.bytes(length);
            let plain = crc::safety_code(word, &s);
            let by_bits = crc::safety_code_by_bits(word, &s);
            let proved = capi::safety_code(word, &s);
            if plain == proved && by_bits == proved {
                agreed += 1;
            } else {
                println!("DIFFERENCE in the safety code of {} under {word:016X}", hexadecimal(&s));
                println!("plain {plain:016X}, by bits {by_bits:016X}, proved {proved:016X}");
            }
        }
        self.tell("safety codes", cases, agreed);
    }

    fn compare_readers(
        &mut self,
        kind: &str,
        cases: u64,
        generator: Generator,
        plain: Reader,
        proved: Reader,
    ) {
        let mut agreed = 0;
        let mut answers = Counts::default();
        for _ in 0..cases {
            let s = generator(&mut self.random);
            let (ours, theirs) = (plain(&s), proved(&s));
            answers.add(&ours.to_string());
            if ours == theirs {
                agreed += 1;
            } else {
                println!("DIFFERENCE in {kind}: {}", hexadecimal(&s));
                println!("plain {ours}, proved {theirs}");
            }
        }
        self.tell(kind, cases, agreed);
        println!("    answers: {}", answers.line());
    }

    /// Good and faulty files, each with a good partner or a faulty one.
    fn compare_files(&mut self, cases: u64) {
        for (kind, cases, sheet, script) in [
            ("sheets, good", cases, good_sheet as Generator, scripts::short as Generator),
            ("sheets, about the ends", cases, sheets::about_the_ends, scripts::short),
            ("sheets, damaged", cases, sheets::damaged, scripts::short),
            ("sheets, random bytes behind the names", cases, sheets::noise, scripts::short),
            ("scripts, damaged", cases, good_sheet, scripts::damaged),
            ("scripts, random bytes behind the names", cases, good_sheet, scripts::noise),
            ("scripts, about 800 calls", cases / 50, good_sheet, scripts::about_the_longest),
            ("both files damaged", cases, sheets::damaged, scripts::damaged),
        ] {
            self.compare_printed(kind, cases, |random| Files {
                sheet: sheet(random),
                script: script(random),
            });
        }
        self.compare_printed("files, far too large", cases / 50, large::files);
    }

    fn compare_rehearsals(&mut self, cases: u64) {
        self.compare_printed("rehearsals, lively", cases, rehearsals::lively);
        self.compare_printed("rehearsals, steady", cases, rehearsals::steady);
        self.compare_printed("rehearsals, flooding", cases, rehearsals::flooding);
        self.compare_short_buffers(cases);
    }

    fn compare_printed(&mut self, kind: &str, cases: u64, files: impl Fn(&mut Random) -> Files) {
        let mut agreed = 0;
        for _ in 0..cases {
            let files = files(&mut self.random);
            let plain = listing::rehearse(&files.sheet, &files.script);
            self.coverage.add(&plain);
            match capi::rehearse(&files.sheet, &files.script, &mut self.out) {
                Ok(length) if self.out[..length] == *plain.as_bytes() => agreed += 1,
                Ok(length) => show(kind, &files, &plain, &self.out[..length]),
                Err(failure) => show(kind, &files, &plain, failure.to_string().as_bytes()),
            }
        }
        self.tell(kind, cases, agreed);
    }

    /// A buffer that just fits, and one that is a byte too short and stays as it was.
    fn compare_short_buffers(&mut self, cases: u64) {
        let mut agreed = 0;
        for _ in 0..cases {
            let files = rehearsals::lively(&mut self.random);
            let plain = listing::rehearse(&files.sheet, &files.script);
            let mut out = vec![FILLING; plain.len()];
            let short = capi::rehearse(&files.sheet, &files.script, &mut out[1..]);
            let untouched = out.iter().all(|&byte| byte == FILLING);
            let fitting = capi::rehearse(&files.sheet, &files.script, &mut out);
            let fits = fitting == Ok(plain.len()) && out == plain.as_bytes();
            if short == Err(Failure::TooShort) && untouched && fits {
                agreed += 1;
            } else {
                println!("short {short:?}, untouched {untouched}, fitting {fitting:?}");
                show("short buffers", &files, &plain, &out);
            }
        }
        self.tell("rehearsals into short buffers", cases, agreed);
    }
}

/// What the two calls for measuring count, also with sizes that are cut.
impl Comparison {
    fn compare_rounds(&mut self, cases: u64) {
        let longest = [LONGEST_MESSAGE + 20, wire::LARGEST + 20];
        let (mut steady, mut wires) = (0, 0);
        for _ in 0..cases {
            let count = self.random.below(60) as u32;
            let held = self.random.below(20) as u32;
            let [message, string] = longest.map(|most| self.random.below(most + 1) as u32);
            let ours = rounds::steady(count, message).delivered;
            let theirs = capi::steady_rounds(count, message);
            steady += agreed(ours, theirs, &format!("{count} steady rounds of {message} bytes"));
            let ours = rounds::wire(held, string, count);
            let theirs = capi::wire_rounds(held, string, count);
            wires += agreed(ours, theirs, &format!("{count} rounds, {held} of {string} bytes"));
        }
        self.tell("steady rounds", cases, steady);
        self.tell("rounds on a wire", cases, wires);
    }
}

/// 1 if the two counts are the same.
fn agreed(plain: u64, proved: Result<u64, Failure>, what: &str) -> u64 {
    let same = proved == Ok(plain);
    if !same {
        println!("DIFFERENCE in {what}: plain {plain}, proved {proved:?}");
    }
    u64::from(same)
}

fn good_sheet(random: &mut Random) -> Vec<u8> {
    sheets::good(random).write().into_bytes()
}

fn show(kind: &str, files: &Files, plain: &str, proved: &[u8]) {
    let Files { sheet, script } = files;
    println!("DIFFERENCE in {kind}");
    println!("sheet in hexadecimal: {}", hexadecimal(sheet));
    println!("sheet:\n{}", String::from_utf8_lossy(sheet));
    println!("script in hexadecimal: {}", hexadecimal(script));
    println!("script:\n{}", String::from_utf8_lossy(script));
    println!("plain:\n{plain}");
    println!("proved:\n{}", String::from_utf8_lossy(proved));
}
