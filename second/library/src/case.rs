//! One library call: its numbers and its buffers, before and after.

use second::shrink::drop_runs;
use std::fmt;

#[derive(Clone, Copy, PartialEq, Eq, PartialOrd, Ord, Debug)]
pub enum Call {
    List,
    Setup,
    Event,
    Read,
    Answers,
    Run,
}

pub const MAP: usize = 0;

impl Call {
    /// The names of the buffers, in the order of include/flamecurl.h.
    pub fn buffers(self) -> &'static [&'static str] {
        match self {
            Call::List => &[
                "map", "words", "cr3s", "events", "work", "outcomes", "answer",
            ],
            Call::Setup => &["map", "cr3s", "pool", "records", "slots"],
            Call::Event => &["map", "words", "pool", "records", "slots", "answer"],
            Call::Read => &[
                "text",
                "map",
                "cr3s",
                "words",
                "events",
                "questions",
                "answer",
            ],
            Call::Answers | Call::Run => &["text", "output", "answer"],
        }
    }

    pub fn numbers(self) -> &'static [&'static str] {
        match self {
            Call::List => &["processor", "address", "request"],
            Call::Setup => &["frames", "processors", "share", "base"],
            Call::Event => &[
                "frames",
                "processors",
                "share",
                "base",
                "processor",
                "kind",
                "a",
                "b",
            ],
            Call::Read | Call::Answers | Call::Run => &[],
        }
    }
}

/// What a call is given. Buffers of bytes are kept as numbers below 256.
#[derive(Clone, PartialEq, Eq)]
pub struct Case {
    pub call: Call,
    pub numbers: Vec<u64>,
    pub buffers: Vec<Vec<u64>>,
}

/// What a call leaves: the number returned, and every buffer.
#[derive(Clone, PartialEq, Eq)]
pub struct After {
    pub refusal: u64,
    pub buffers: Vec<Vec<u64>>,
}

impl Case {
    pub fn at(&self, name: &str) -> usize {
        let names = self.call.buffers();
        names
            .iter()
            .position(|&n| n == name)
            .expect("the call has this buffer")
    }

    pub fn buffer(&self, name: &str) -> &Vec<u64> {
        &self.buffers[self.at(name)]
    }

    pub fn buffer_mut(&mut self, name: &str) -> &mut Vec<u64> {
        let at = self.at(name);
        &mut self.buffers[at]
    }
}

/// A smaller case that still differs: fewer events or bytes of text, then fewer numbers that are not 0.
pub fn shrink(case: &Case, differs: &mut dyn FnMut(&Case) -> bool) -> Case {
    let mut case = case.clone();
    for (name, width) in [("events", 4), ("text", 1)] {
        let of_this_call = case.call == Call::List && name == "events"
            || case.call.buffers().contains(&"text") && name == "text";
        if of_this_call {
            let rows: Vec<Vec<u64>> = case
                .buffer(name)
                .chunks(width)
                .map(<[u64]>::to_vec)
                .collect();
            let kept = drop_runs(rows, &mut |rows| {
                let mut smaller = case.clone();
                *smaller.buffer_mut(name) = rows.concat();
                differs(&smaller)
            });
            *case.buffer_mut(name) = kept.concat();
        }
    }
    let mut filled = Vec::new();
    for (at, buffer) in case.buffers.iter().enumerate() {
        filled.extend(
            (0..buffer.len())
                .filter(|&i| buffer[i] != 0)
                .map(|i| (at, i)),
        );
    }
    let kept = drop_runs(filled, &mut |kept| differs(&only(&case, kept)));
    only(&case, &kept)
}

/// The case with these numbers only; all others are 0.
fn only(case: &Case, kept: &[(usize, usize)]) -> Case {
    let mut smaller = case.clone();
    for buffer in &mut smaller.buffers {
        buffer.fill(0);
    }
    for &(at, i) in kept {
        smaller.buffers[at][i] = case.buffers[at][i];
    }
    smaller
}

/// A buffer as its length and the numbers in it that are not 0.
fn show(f: &mut fmt::Formatter, name: &str, buffer: &[u64]) -> fmt::Result {
    write!(f, "  {name} [{}]", buffer.len())?;
    for (i, &number) in buffer.iter().enumerate().filter(|(_, n)| **n != 0) {
        write!(f, " {i}:{number}")?;
    }
    writeln!(f)
}

impl fmt::Display for Case {
    fn fmt(&self, f: &mut fmt::Formatter) -> fmt::Result {
        write!(f, "{:?}", self.call)?;
        for (name, number) in self.call.numbers().iter().zip(&self.numbers) {
            write!(f, " {name} {number}")?;
        }
        writeln!(f)?;
        for (name, buffer) in self.call.buffers().iter().zip(&self.buffers) {
            show(f, name, buffer)?;
        }
        Ok(())
    }
}

/// What one side left where the other side left something else.
pub struct Difference<'a> {
    pub call: Call,
    pub mine: &'a After,
    pub other: &'a After,
}

impl fmt::Display for Difference<'_> {
    fn fmt(&self, f: &mut fmt::Formatter) -> fmt::Result {
        writeln!(f, "  returned {}", self.mine.refusal)?;
        let names = self.call.buffers().iter();
        for ((name, mine), other) in names.zip(&self.mine.buffers).zip(&self.other.buffers) {
            if mine != other {
                show(f, name, mine)?;
            }
        }
        Ok(())
    }
}
