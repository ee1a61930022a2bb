//! Makes the same random calls on the plain machine and on the proved library, and compares answers, registers and every word of every buffer.

mod cases;
mod chains;
mod climbs;
mod damage;
mod draft;
mod elements;
mod generate;
mod laws;
mod lookups;
mod messages;
mod random;
mod report;
mod shrink;
// `runner` uses another part of it.
#[allow(dead_code)]
#[path = "../../sides.rs"]
mod sides;

use random::Random;
use report::Report;
use sides::{Buffers, Call};
use std::panic::{catch_unwind, AssertUnwindSafe};
use std::process::exit;
use std::time::{Duration, Instant};

const SEED: u64 = 80;
const CASES: u64 = 10_000;

const HELP: &str = "usage: compare [SEED [SECONDS]]
       compare SEED --case NUMBER

Makes the same calls on the machine written apart and on the proved library, and compares what each gives: answers, registers, every word of
contents, bodies, stack and cache, the bytes that save writes, and the answers of play. What play comes to has also to be what the library's
single calls come to. A run in parts has to come to the same, with the largest reach of the parts and their sums of dictionaries added up, and so
has a run on a stack of reach words; on a word less it must not. In between lookups are made on both: what is found, and how many dictionaries and
pairs of these are read. Without SECONDS it makes a fixed number of cases and asks that all of the machine was covered; with SECONDS it goes on
for so long. A difference is printed with the calls that show it, its image is written to target/apart/difference.image, and the status is 1.
--case makes one case again.";

enum Extent {
    Fixed,
    Seconds(u64),
    One(u64),
}

fn number(text: &str) -> u64 {
    text.parse().unwrap_or_else(|_| {
        eprintln!("'{text}' is no number\n{HELP}");
        exit(2)
    })
}

fn arguments() -> (u64, Extent) {
    let given: Vec<String> = std::env::args().skip(1).collect();
    let given: Vec<&str> = given.iter().map(|text| text.as_str()).collect();
    match given[..] {
        ["--help"] | ["-h"] => {
            println!("{HELP}");
            exit(0)
        }
        [] => (SEED, Extent::Fixed),
        [seed] => (number(seed), Extent::Fixed),
        [seed, "--case", case] => (number(seed), Extent::One(number(case))),
        [seed, seconds] => (number(seed), Extent::Seconds(number(seconds))),
        _ => {
            eprintln!("{HELP}");
            exit(2)
        }
    }
}

fn main() {
    let (seed, extent) = arguments();
    let begun = Instant::now();
    if let Extent::Fixed = extent {
        if let Some(what) = climbs::beyond_32_bits() {
            println!("{what}");
            exit(1);
        }
    }
    let mut report = Report::default();
    let mut case = if let Extent::One(case) = extent { case } else { 0 };
    let goes_on = |case: u64| match extent {
        Extent::Fixed => case < CASES,
        Extent::Seconds(seconds) => begun.elapsed() < Duration::from_secs(seconds),
        Extent::One(one) => case == one,
    };
    while goes_on(case) {
        let mut random = Random::new(seed, case);
        // A panic of the plain machine names its case too.
        match catch_unwind(AssertUnwindSafe(|| cases::case(&mut random, &mut report))) {
            Ok(Ok(())) => {}
            Ok(Err((first, calls, what))) => differs(seed, case, &first, calls, what),
            Err(_) => {
                println!("seed {seed}, case {case}: the machine written apart has no step here, see above");
                exit(1);
            }
        }
        report.cases += 1;
        case += 1;
    }
    report.print();
    println!("seed {seed}: {} cases, no difference", report.cases);
    let missing = report.missing();
    if let (Extent::Fixed, false) = (&extent, missing.is_empty()) {
        println!("not covered: {}", missing.join(", "));
        exit(1);
    }
}

/// Prints a difference, writes its image, and ends.
fn differs(seed: u64, case: u64, first: &Buffers, calls: Vec<Call>, what: String) -> ! {
    println!("seed {seed}, case {case}: {what}");
    let (calls, what) = shrink::shrink(first, calls, what);
    println!("lengths of contents, bodies, stack, cache: {:?}", first.lengths);
    for call in &calls {
        println!("  {}", call.text());
    }
    println!("the last call differs: {what}");
    let image = calls.iter().rev().find_map(|call| if let Call::Load(image) = call { Some(image) } else { None });
    if let Some(image) = image {
        let path = "target/apart/difference.image";
        match std::fs::write(path, image) {
            Ok(()) => println!("the image that was loaded last is in {path}"),
            Err(error) => println!("{path} cannot be written: {error}"),
        }
    }
    println!("again: compare {seed} --case {case}");
    exit(1)
}
