//! A puzzle as the row of numbers that its text is, each with what it stands
//! for, and writers that part the numbers in several ways.

use super::Prng;
use crate::puzzle::Puzzle;
use crate::rules::*;

/// What a number of the text stands for.
#[derive(Clone, Copy, PartialEq, Eq, PartialOrd, Ord, Debug)]
pub enum Role {
    FrameCount,
    Cr3Count,
    WordCount,
    EventCount,
    QuestionCount,
    MapFrame,
    Cr3,
    Word,
    StoredWord,
    Value,
    Processor,
    Kind,
    Address,
    Zero,
    Request,
    Slot,
}

#[derive(Clone, Debug)]
pub struct Token {
    pub role: Role,
    pub text: String,
    /// Whether a plain writer begins a line here.
    pub opens: bool,
}

/// The numbers of a puzzle in the order of the text.
pub fn tokens(puzzle: &Puzzle) -> Vec<Token> {
    let mut tokens = Vec::new();
    let mut row = |numbers: &[(Role, u64)]| {
        for (at, &(role, number)) in numbers.iter().enumerate() {
            tokens.push(Token {
                role,
                text: number.to_string(),
                opens: at == 0,
            });
        }
    };
    let counted = |count: Role, of: Role, numbers: &[u64]| {
        let mut row = vec![(count, numbers.len() as u64)];
        row.extend(numbers.iter().map(|&number| (of, number)));
        row
    };
    row(&counted(Role::FrameCount, Role::MapFrame, &puzzle.map));
    row(&counted(Role::Cr3Count, Role::Cr3, &puzzle.cr3s));
    row(&[(Role::WordCount, puzzle.words.len() as u64)]);
    for &(word, value) in &puzzle.words {
        row(&[(Role::Word, word), (Role::Value, value)]);
    }
    row(&[(Role::EventCount, puzzle.events.len() as u64)]);
    for event in &puzzle.events {
        let (a, b) = event_roles(event.kind);
        row(&[
            (Role::Processor, event.processor),
            (Role::Kind, event.kind),
            (a, event.a),
            (b, event.b),
        ]);
    }
    row(&[(Role::QuestionCount, puzzle.questions.len() as u64)]);
    for question in &puzzle.questions {
        let Question {
            processor,
            address,
            request,
        } = *question;
        row(&[
            (Role::Processor, processor),
            (Role::Address, address),
            (Role::Request, request),
        ]);
    }
    tokens
}

fn event_roles(kind: u64) -> (Role, Role) {
    match kind {
        STORE => (Role::StoredWord, Role::Value),
        INVLPG => (Role::Address, Role::Zero),
        CR3_WRITE => (Role::Cr3, Role::Zero),
        ACCESS => (Role::Address, Role::Request),
        BEGIN => (Role::Address, Role::Slot),
        _ => (Role::Slot, Role::Zero),
    }
}

/// One row of the puzzle on each line.
pub fn plain(tokens: &[Token]) -> Vec<u8> {
    let mut text = String::new();
    for (at, token) in tokens.iter().enumerate() {
        if at > 0 {
            text.push(if token.opens { '\n' } else { ' ' });
        }
        text += &token.text;
    }
    text.push('\n');
    text.into_bytes()
}

/// In one of several habits of parting numbers.
pub fn write(rng: &mut Prng, tokens: &[Token]) -> Vec<u8> {
    let blanks: &[&str] = match rng.below(4) {
        0 => &[" "],
        1 => &["\n"],
        2 => &[" ", "\n", "  ", " \n", "\n\n "],
        _ => return plain(tokens),
    };
    let mut text = String::new();
    if rng.percent(20) {
        text += rng.pick(blanks);
    }
    for (at, token) in tokens.iter().enumerate() {
        if at > 0 {
            text += rng.pick(blanks);
        }
        text += &token.text;
    }
    if rng.percent(60) {
        text += rng.pick(blanks);
    }
    text.into_bytes()
}

/// Blanks at the end, up to this length.
pub fn pad(rng: &mut Prng, text: &mut Vec<u8>, length: usize) {
    let blank = rng.pick(b" \n");
    if text.len() < length {
        text.resize(length, blank);
    }
}
