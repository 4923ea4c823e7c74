//! `library SEED COUNT`: makes COUNT library calls from SEED and compares what the proved library and the second program
//! leave, buffer for buffer. The first difference is shrunk and shown. The last line is 'N passed, M failed'; the exit
//! status is 1 if there was a difference.

use library::calls::{put_to_library, put_to_second};
use library::case::{shrink, Call, Case, Difference};
use library::make;
use std::collections::BTreeMap;
use std::process::ExitCode;

fn main() -> ExitCode {
    let arguments: Vec<String> = std::env::args().skip(1).collect();
    let parsed: Option<Vec<u64>> = arguments.iter().map(|a| a.parse().ok()).collect();
    match parsed.as_deref() {
        Some(&[seed, count]) => compare(seed, count),
        _ => {
            eprintln!("usage: library SEED COUNT");
            ExitCode::from(2)
        }
    }
}

fn compare(seed: u64, count: u64) -> ExitCode {
    let mut tally = BTreeMap::new();
    let mut failed = 0;
    for number in 0..count {
        let case = make::case(seed, number);
        let mine = put_to_second(&case);
        *tally
            .entry(named(&case, mine.refusal, &mine.buffers))
            .or_insert(0u64) += 1;
        if put_to_library(&case) != mine {
            failed += 1;
            println!("call {number} differs: {:?}", case.call);
            if failed == 1 {
                show_shrunk(&case);
            }
        }
    }
    println!("calls compared:");
    for (name, count) in tally {
        println!("  {count:>8} {name}");
    }
    println!("{} passed, {failed} failed", count - failed);
    ExitCode::from(u8::from(failed > 0))
}

/// What kind of call this was, for the table at the end.
fn named(case: &Case, refusal: u64, after: &[Vec<u64>]) -> String {
    let call = format!("{:?}", case.call);
    if refusal != 0 {
        return format!("{call} refused {refusal:>2}");
    }
    match case.call {
        Call::Event => {
            let kind = case.numbers[5];
            let answer = after[case.at("answer")][1];
            format!("{call} {kind} answered {answer}")
        }
        Call::List => {
            let large = case.buffer("map").len() > 16 || case.buffer("events").len() > 4 * 256;
            let size = if large {
                "beyond the programs' sizes"
            } else {
                "small"
            };
            format!("{call} answered, {size}")
        }
        _ => format!("{call} answered"),
    }
}

/// At most some thousand tries, so that it comes to an end.
fn show_shrunk(case: &Case) {
    let mut tries = 5000;
    let smallest = shrink(case, &mut |case| {
        tries -= 1;
        tries > 0 && put_to_library(case) != put_to_second(case)
    });
    let (mine, proved) = (put_to_second(&smallest), put_to_library(&smallest));
    let call = smallest.call;
    print!("smallest call found:\n{smallest}");
    print!(
        "the proved library leaves:\n{}",
        Difference {
            call,
            mine: &proved,
            other: &mine
        }
    );
    print!(
        "the second program leaves:\n{}",
        Difference {
            call,
            mine: &mine,
            other: &proved
        }
    );
    println!("end of the difference");
}
