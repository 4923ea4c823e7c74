//! `compare SEED COUNT ANSWERS_PROGRAM [RUN_PROGRAM]`: makes COUNT texts from
//! SEED and compares the given programs with the second implementation, byte for
//! byte. The first difference of each program is shrunk and shown. The last line
//! is 'N passed, M failed'; the exit status is 1 if there was a difference.

use second::{gen, report, shrink};
use std::collections::BTreeMap;
use std::io::{self, Write};
use std::process::{Command, ExitCode, Stdio};

/// A given program and what the second implementation prints in its place.
struct Pair {
    program: String,
    second: fn(&[u8]) -> String,
    failed: u64,
}

impl Pair {
    fn differs(&self, text: &[u8]) -> io::Result<bool> {
        Ok(output_of(&self.program, text)? != (self.second)(text).as_bytes())
    }
}

#[derive(Default)]
struct Tally {
    kinds: BTreeMap<&'static str, u64>,
    lines: BTreeMap<String, u64>,
}

fn main() -> ExitCode {
    let arguments: Vec<String> = std::env::args().skip(1).collect();
    match arguments.as_slice() {
        [seed, count, programs @ ..] if (1..=2).contains(&programs.len()) => {
            match (seed.parse(), count.parse()) {
                (Ok(seed), Ok(count)) => compare(seed, count, programs),
                _ => usage(),
            }
        }
        _ => usage(),
    }
}

fn usage() -> ExitCode {
    eprintln!("usage: compare SEED COUNT ANSWERS_PROGRAM [RUN_PROGRAM]");
    ExitCode::from(2)
}

fn compare(seed: u64, count: u64, programs: &[String]) -> ExitCode {
    let seconds: [fn(&[u8]) -> String; 2] = [report::answers, report::run];
    let mut pairs: Vec<Pair> = programs
        .iter()
        .zip(seconds)
        .map(|(program, second)| Pair {
            program: program.clone(),
            second,
            failed: 0,
        })
        .collect();
    let mut tally = Tally::default();
    let mut passed = 0;
    for number in 0..count {
        let sample = gen::sample(seed, number);
        *tally.kinds.entry(sample.kind).or_default() += 1;
        for pair in &mut pairs {
            match compare_one(pair, &sample, number, &mut tally) {
                Ok(true) => passed += 1,
                Ok(false) => {}
                Err(error) => {
                    eprintln!("{}: {error}", pair.program);
                    return ExitCode::from(2);
                }
            }
        }
    }
    tally.print();
    let failed: u64 = pairs.iter().map(|pair| pair.failed).sum();
    println!("{passed} passed, {failed} failed");
    ExitCode::from(u8::from(failed > 0))
}

fn compare_one(
    pair: &mut Pair,
    sample: &gen::Sample,
    number: u64,
    tally: &mut Tally,
) -> io::Result<bool> {
    let mine = (pair.second)(&sample.text);
    tally.count_lines(&mine);
    if output_of(&pair.program, &sample.text)? == mine.as_bytes() {
        return Ok(true);
    }
    pair.failed += 1;
    println!("{}: text {number} ({}) differs", pair.program, sample.kind);
    if pair.failed == 1 {
        show_shrunk(pair, &sample.text)?;
    }
    Ok(false)
}

/// At most some thousand tries, so that a slow program still comes to an end.
fn show_shrunk(pair: &Pair, text: &[u8]) -> io::Result<()> {
    let mut tries = 3000;
    let smallest = shrink::shrink(text, &mut |text| {
        tries -= 1;
        tries > 0 && pair.differs(text).unwrap_or(false)
    });
    let mut out = io::stdout().lock();
    writeln!(out, "smallest text found, {} bytes:", smallest.len())?;
    out.write_all(&smallest)?;
    writeln!(out, "\n{} prints:", pair.program)?;
    out.write_all(&output_of(&pair.program, &smallest)?)?;
    writeln!(out, "the second implementation prints:")?;
    out.write_all((pair.second)(&smallest).as_bytes())?;
    writeln!(out, "end of the difference")
}

/// What the program prints for this text, and its exit status if that is not 0:
/// refused or not, a text is answered with status 0. It may stop reading early,
/// so a refused write is no fault.
fn output_of(program: &str, text: &[u8]) -> io::Result<Vec<u8>> {
    let mut child = Command::new(program)
        .stdin(Stdio::piped())
        .stdout(Stdio::piped())
        .spawn()?;
    let stdin = child.stdin.take();
    std::thread::scope(|scope| {
        scope.spawn(|| {
            if let Some(mut stdin) = stdin {
                let _ = stdin.write_all(text);
            }
        });
        let mut output = child.wait_with_output()?;
        if !output.status.success() {
            let line = format!("(the program ended with {})\n", output.status);
            output.stdout.extend(line.bytes());
        }
        Ok(output.stdout)
    })
}

impl Tally {
    /// Counts lines by letter and, where it is telling, by number.
    fn count_lines(&mut self, output: &str) {
        for line in output.lines() {
            let words: Vec<&str> = line.split(' ').collect();
            let name = match words.as_slice() {
                ["Q", _, _, _, count] => format!("Q with {count:>2} outcomes"),
                ["E", _, "2", code] => format!("E kind 2 code {code:>2}"),
                ["E", _, kind, _] => format!("E kind {kind}"),
                ["F", code] => format!("F {code:>2}"),
                ["R", number, _] => format!("R {number}"),
                [letter, ..] => letter.to_string(),
                [] => continue,
            };
            *self.lines.entry(name).or_default() += 1;
        }
    }

    fn print(&self) {
        println!("texts by kind:");
        for (kind, count) in &self.kinds {
            println!("  {count:>8} {kind}");
        }
        println!("lines compared:");
        for (name, count) in &self.lines {
            println!("  {count:>8} {name}");
        }
    }
}
