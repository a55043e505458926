//! Times the proved library and the plain implementation on the same work, in one run.

use std::hint::black_box;
use std::process::ExitCode;
use std::time::{Duration, Instant};

use bench::capi::{self, Failure};
use bench::plain::{crc, listing};
use bench::rounds;

const RUNS: u32 = 25;
/// A run has so many repetitions that it takes at least so many nanoseconds.
const SHORTEST_RUN: u128 = 20_000_000;

const CODE: usize = 8;
const FRAMES: [usize; 3] = [18, 256, 1041];
const MESSAGE: u32 = 256;
const STEADY_ROUNDS: u32 = 2_000;
const CALLS: [usize; 4] = [100, 200, 400, 800];
const HELD: [u32; 4] = [1, 10, 100, 1000];
const STRING: u32 = 32;
const WIRE_ROUNDS: u32 = 5_000;
const LONGEST_LISTING: usize = 1 << 17;

const SHEET: &str = "\
role own1 own2 far1 far2 version period window mmin mmax ask wait setup data ec
1 5A5A0001 00C3A5F0 A5A50FF1 00C35A0F 1 100 3 -2 3 5 2 9 64 0
0 A5A50FF1 00C35A0F 5A5A0001 00C3A5F0 1 100 3 -2 3 5 2 9 64 0
";

fn main() -> ExitCode {
    introduce();
    match measure() {
        Ok(()) => ExitCode::SUCCESS,
        Err(failure) => {
            eprintln!("the proved library: {failure}");
            ExitCode::FAILURE
        }
    }
}

fn introduce() {
    println!(
        "\
Each time is the shortest of {RUNS} runs, after some to warm up. A run repeats its work for
{SHORTEST_RUN} ns or longer, and its time is divided by the repetitions; nothing is subtracted.
A ratio of 2.0 says that the proved code takes twice as long as the plain code beside it.

(a) The safety code of a frame's bytes before the code: nanoseconds a call. 'bits' is the plain
    walk bit by bit, 'table' the plain one with a table for each check.
(b) A link that is up: its initiator ticks with {MESSAGE} bytes, its responder with none, and
    each fetches three times. {STEADY_ROUNDS} such rounds, opening and stops included in the time.
    A call is a tick or a fetch of the rounds.
(c) A rehearsal of a script of so many calls, from and to memory: microseconds a rehearsal.
    'equal' says whether both wrote the same listing.
(d) A put and a fetch of {STRING} bytes on a wire that holds so many strings: nanoseconds a put
    and fetch, out of {WIRE_ROUNDS} of them, making and filling the wire included."
    );
}

fn measure() -> Result<(), Failure> {
    safety_codes();
    steady_link()?;
    rehearsals()?;
    held_strings()
}

/// The shortest time of each of the works, in nanoseconds. They take turns, so that whatever else
/// the machine does slows all of them alike.
fn times<const N: usize>(mut works: [&mut dyn FnMut(); N]) -> [f64; N] {
    let repetitions = works.each_mut().map(|work| enough(*work));
    let mut best = [f64::INFINITY; N];
    for _ in 0..RUNS {
        for index in 0..N {
            let time = run(works[index], repetitions[index]).as_secs_f64() * 1e9;
            best[index] = best[index].min(time / f64::from(repetitions[index]));
        }
    }
    best
}

/// How many repetitions take long enough.
fn enough(work: &mut dyn FnMut()) -> u32 {
    let mut repetitions = 1;
    while run(work, repetitions).as_nanos() < SHORTEST_RUN {
        repetitions *= 2;
    }
    repetitions
}

fn run(work: &mut dyn FnMut(), repetitions: u32) -> Duration {
    let start = Instant::now();
    for _ in 0..repetitions {
        work();
    }
    start.elapsed()
}

/// Has the answer worked out although nobody wants it.
fn keep<T>(answer: T) {
    black_box(answer);
}

fn safety_codes() {
    println!("\n(a) safety code, ns");
    println!(
        "{:>12} {:>10} {:>10} {:>10} {:>12} {:>13}",
        "frame bytes", "proved", "bits", "table", "proved/bits", "proved/table"
    );
    for frame in FRAMES {
        let s: Vec<u8> = (0..frame - CODE).map(|index| (index * 31) as u8).collect();
        let [proved, bits, table] = times([
            &mut || keep(capi::safety_code(black_box(7), black_box(&s))),
            &mut || keep(crc::safety_code_by_bits(black_box(7), black_box(&s))),
            &mut || keep(crc::safety_code(black_box(7), black_box(&s))),
        ]);
        println!(
            "{frame:>12} {proved:>10.1} {bits:>10.1} {table:>10.1} {:>12.2} {:>13.2}",
            proved / bits,
            proved / table
        );
    }
}

fn steady_link() -> Result<(), Failure> {
    println!("\n(b) steady link");
    let plain = rounds::steady(STEADY_ROUNDS, MESSAGE);
    let delivered = capi::steady_rounds(STEADY_ROUNDS, MESSAGE)?;
    println!("    messages delivered: proved {delivered}, plain {}", plain.delivered);
    let mut theirs = || keep(capi::steady_rounds(black_box(STEADY_ROUNDS), MESSAGE));
    let mut ours = || keep(rounds::steady(black_box(STEADY_ROUNDS), MESSAGE));
    let [proved, ours] = times([&mut theirs, &mut ours]);
    println!("{:>8} {:>12} {:>14} {:>14}", "", "ns a round", "rounds/second", "calls/second");
    for (name, nanoseconds) in [("proved", proved), ("plain", ours)] {
        let second = 1e9 / nanoseconds;
        println!(
            "{name:>8} {:>12.0} {:>14.0} {:>14.0}",
            nanoseconds / f64::from(STEADY_ROUNDS),
            second * f64::from(STEADY_ROUNDS),
            second * plain.calls as f64
        );
    }
    println!("    proved/plain {:.2}", proved / ours);
    Ok(())
}

/// So many calls: an opening, and then rounds of a link that stays up.
fn script(calls: usize) -> String {
    let opening = ["R fetch -", "I fetch -"].repeat(3).into_iter().chain(["I tick -", "R fetch -"]);
    let round = ["I tick TRACK-17-OCCUPIED", "R tick -"].into_iter();
    let round = round.chain(["I fetch -", "R fetch -"].repeat(2)).collect::<Vec<_>>();
    let lines = opening.chain(round.into_iter().cycle()).take(calls);
    ["end do text"].into_iter().chain(lines).map(|line| format!("{line}\n")).collect()
}

fn rehearsals() -> Result<(), Failure> {
    println!("\n(c) rehearsal, us");
    println!(
        "{:>8} {:>10} {:>10} {:>13} {:>6}",
        "calls", "proved", "plain", "proved/plain", "equal"
    );
    let mut out = vec![0; LONGEST_LISTING];
    for calls in CALLS {
        let (sheet, script) = (SHEET.as_bytes(), script(calls).into_bytes());
        let plain = listing::rehearse(sheet, &script);
        let length = capi::rehearse(sheet, &script, &mut out)?;
        let equal = out[..length] == *plain.as_bytes();
        let mut theirs = || keep(capi::rehearse(black_box(sheet), &script, &mut out));
        let mut ours = || keep(listing::rehearse(black_box(sheet), &script));
        let [proved, ours] = times([&mut theirs, &mut ours]);
        println!(
            "{calls:>8} {:>10.1} {:>10.1} {:>13.2} {equal:>6}",
            proved / 1e3,
            ours / 1e3,
            proved / ours
        );
    }
    Ok(())
}

fn held_strings() -> Result<(), Failure> {
    println!("\n(d) wire, ns");
    println!("{:>8} {:>10} {:>10} {:>13}", "held", "proved", "plain", "proved/plain");
    for held in HELD {
        capi::wire_rounds(held, STRING, 1)?;
        let mut theirs = || keep(capi::wire_rounds(black_box(held), STRING, WIRE_ROUNDS));
        let mut ours = || keep(rounds::wire(black_box(held), STRING, WIRE_ROUNDS));
        let [proved, ours] = times([&mut theirs, &mut ours]);
        let rounds = f64::from(WIRE_ROUNDS);
        println!(
            "{held:>8} {:>10.1} {:>10.1} {:>13.2}",
            proved / rounds,
            ours / rounds,
            proved / ours
        );
    }
    Ok(())
}
