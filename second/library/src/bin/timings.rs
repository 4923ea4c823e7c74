//! `timings SEED COUNT`: makes COUNT list calls from SEED and compares what the proved library leaves with the rule of
//! document 01 tried literally: every choice of moments t4 ≤ t3 ≤ t2 ≤ t1. The last line is 'N passed, M failed'; the exit
//! status is 1 if there was a difference.

use library::calls::{put_to_library, put_to_rule};
use library::case::{Case, Difference};
use library::make;
use second::lists::by_timings;
use std::process::ExitCode;

fn main() -> ExitCode {
    let arguments: Vec<String> = std::env::args().skip(1).collect();
    let parsed: Option<Vec<u64>> = arguments.iter().map(|a| a.parse().ok()).collect();
    match parsed.as_deref() {
        Some(&[seed, count]) => compare(seed, count),
        _ => {
            eprintln!("usage: timings SEED COUNT");
            ExitCode::from(2)
        }
    }
}

/// How far the calls went.
#[derive(Default)]
struct Most {
    frames: usize,
    events: usize,
    outcomes: u64,
    held: u64,
}

fn compare(seed: u64, count: u64) -> ExitCode {
    let (mut failed, mut most) = (0, Most::default());
    for number in 0..count {
        let case = make::short_list(seed, number);
        let literally = put_to_rule(by_timings, &case);
        let proved = put_to_library(&case);
        let frames = case.buffer("map").len();
        let work = &literally.buffers[case.at("work")][..40 * frames];
        most.frames = most.frames.max(frames);
        most.events = most.events.max(case.buffer("events").len() / 4);
        most.outcomes = most.outcomes.max(literally.buffers[case.at("answer")][1]);
        most.held = most.held.max(work.iter().sum());
        if proved != literally {
            failed += 1;
            println!("list call {number} differs");
            if failed == 1 {
                show(&case, &proved, &literally);
            }
        }
    }
    println!(
        "list calls by every choice of moments: up to {} frames, {} events, {} held walks, {} outcomes",
        most.frames, most.events, most.held, most.outcomes
    );
    println!("{} passed, {failed} failed", count - failed);
    ExitCode::from(u8::from(failed > 0))
}

fn show(case: &Case, proved: &library::case::After, literally: &library::case::After) {
    let call = case.call;
    let (mine, other) = (proved, literally);
    print!(
        "{case}the proved library leaves:\n{}",
        Difference { call, mine, other }
    );
    let (mine, other) = (literally, proved);
    print!(
        "the rule by moments leaves:\n{}",
        Difference { call, mine, other }
    );
}
