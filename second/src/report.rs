//! The programs `answers` and `run`: from the bytes of standard input to the
//! text of standard output.

use crate::lists::{self, Outcome};
use crate::machine::Machine;
use crate::puzzle::{self, Puzzle, Refused, SHARE, TEXT_LIMIT};
use crate::rules::*;
use std::fmt::Write;
use std::io::{self, Read};

pub fn answers(text: &[u8]) -> String {
    puzzle::read(text).map_or_else(refusal, |puzzle| print_answers(&puzzle))
}

pub fn run(text: &[u8]) -> String {
    puzzle::read(text).map_or_else(refusal, |puzzle| print_run(&puzzle))
}

fn refusal(refused: Refused) -> String {
    format!("R {} {}\n", refused.number, refused.line)
}

fn print_answers(puzzle: &Puzzle) -> String {
    let map = Map::new(&puzzle.map);
    let words = puzzle.start_words();
    let mut out = String::new();
    for question in &puzzle.questions {
        let (_, outcomes) = lists::answers(&words, &puzzle.cr3s, &puzzle.events, question);
        let Question {
            processor,
            address,
            request,
        } = *question;
        line(
            &mut out,
            format_args!("Q {processor} {address} {request} {}", outcomes.len()),
        );
        for outcome in outcomes {
            match outcome {
                Outcome::Address(frame) => {
                    let host = host_address(map.host(frame), address);
                    line(&mut out, format_args!("A {} {host}", frame.0));
                }
                Outcome::Fault(code) => line(&mut out, format_args!("F {code}")),
            }
        }
    }
    out
}

fn print_run(puzzle: &Puzzle) -> String {
    let mut machine = Machine::new(
        Map::new(&puzzle.map),
        puzzle.start_words(),
        SHARE,
        &puzzle.cr3s,
    );
    let mut out = String::new();
    for (event, place) in puzzle.events.iter().zip(1..) {
        let (kind, value) = machine.happen(event).numbers();
        line(&mut out, format_args!("E {place} {kind} {value}"));
    }
    out
}

fn line(out: &mut String, text: std::fmt::Arguments) {
    writeln!(out, "{text}").expect("a String takes every write");
}

/// Standard input up to one byte more than a text may have.
pub fn read_input() -> io::Result<Vec<u8>> {
    let mut text = Vec::new();
    io::stdin()
        .take(TEXT_LIMIT as u64 + 1)
        .read_to_end(&mut text)?;
    Ok(text)
}
