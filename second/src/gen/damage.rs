//! Numbers at the sides of their ranges, and texts damaged in each way that
//! document 01 names.

use super::tokens::{pad, tokens, write, Role, Token};
use super::{puzzle, Prng, Sample, Style, SMALL};
use crate::puzzle::{Puzzle, POOL_BASE, TEXT_LIMIT};
use crate::rules::*;
use std::collections::BTreeSet;

pub fn inner_side(rng: &mut Prng, role: Role, puzzle: &Puzzle) -> Option<u64> {
    let half = 1u64 << 47;
    match role {
        Role::Cr3 => Some(puzzle.guest_frames() - 1),
        Role::StoredWord => Some(WORDS_PER_FRAME * puzzle.guest_frames() - 1),
        Role::Value => Some(u64::MAX),
        Role::Processor => Some(puzzle.cr3s.len() as u64 - 1),
        Role::Address => {
            Some(rng.pick(&[half - 1, 0u64.wrapping_sub(half), u64::MAX, half - 4096, 0]))
        }
        Role::Request => Some(5),
        Role::Slot => Some(7),
        _ => None,
    }
}

fn outer_side(rng: &mut Prng, role: Role, puzzle: &Puzzle) -> Option<u64> {
    let half = 1u64 << 47;
    let limit = match role {
        Role::FrameCount => rng.pick(&[0, 17]),
        Role::Cr3Count => rng.pick(&[0, 5]),
        Role::WordCount => WORDS_PER_FRAME * puzzle.guest_frames() + 1,
        Role::EventCount => 257,
        Role::QuestionCount => rng.pick(&[0, 17]),
        Role::MapFrame => POOL_BASE,
        Role::Cr3 => puzzle.guest_frames(),
        Role::Word | Role::StoredWord => WORDS_PER_FRAME * puzzle.guest_frames(),
        Role::Processor => puzzle.cr3s.len() as u64,
        Role::Kind => rng.pick(&[0, 8]),
        Role::Address => {
            return Some(rng.pick(&[half, 0u64.wrapping_sub(half) - 1, 1 << 63, 1 << 48]))
        }
        Role::Zero => 1,
        Role::Request => 6,
        Role::Slot => 8,
        Role::Value => return None,
    };
    Some(match rng.below(4) {
        0 if limit > 0 => rng.pick(&[u64::MAX, 1 << 32, (1 << 32) + 1, limit + 1]),
        _ => limit,
    })
}

pub const DAMAGES: [&str; 15] = [
    "bad byte",
    "leading zero",
    "2^64 or more",
    "missing number",
    "left-over number",
    "out of range",
    "repeated map frame",
    "word not rising",
    "wrong count",
    "over-long",
    "swapped numbers",
    "byte noise",
    "blanks only",
    "two damages",
    "fault by fault",
];

pub fn damaged(rng: &mut Prng) -> Sample {
    let kind = DAMAGES[rng.weighted(&[3, 3, 2, 3, 2, 9, 2, 2, 3, 2, 2, 3, 1, 3, 6])];
    let puzzle = puzzle_with_all_roles(rng);
    let mut tokens = tokens(&puzzle);
    if kind == "two damages" {
        for _ in 0..2 {
            let one = rng.pick(&DAMAGES[..9]);
            damage_tokens(rng, one, &puzzle, &mut tokens);
        }
    } else {
        damage_tokens(rng, kind, &puzzle, &mut tokens);
    }
    let mut text = write(rng, &tokens);
    damage_bytes(rng, kind, &mut text);
    if kind == "two damages" && rng.percent(30) {
        damage_bytes(rng, "bad byte", &mut text);
    }
    Sample { kind, text }
}

/// At least two map frames and words, and an event of each kind.
fn puzzle_with_all_roles(rng: &mut Prng) -> Puzzle {
    let style = Style {
        guest_frames: (2, 16),
        processors: (1, 4),
        events: (0, 4),
        other_words: (2, 6),
        ..SMALL
    };
    let mut puzzle = puzzle(rng, &style);
    let last = puzzle.cr3s.len() as u64 - 1;
    for kind in STORE..=DROP {
        let at = rng.below(puzzle.events.len() as u64 + 1) as usize;
        puzzle
            .events
            .insert(at, Event::new(rng.between((0, last)), kind, 1, 0));
    }
    puzzle
}

fn place_of_role(rng: &mut Prng, tokens: &[Token], role: Role) -> Option<usize> {
    let places: Vec<usize> = (0..tokens.len())
        .filter(|&at| tokens[at].role == role)
        .collect();
    (!places.is_empty()).then(|| rng.pick(&places))
}

fn damage_tokens(rng: &mut Prng, kind: &str, puzzle: &Puzzle, tokens: &mut Vec<Token>) {
    if tokens.is_empty() {
        return;
    }
    let any = rng.below(tokens.len() as u64) as usize;
    match kind {
        "leading zero" => tokens[any]
            .text
            .insert_str(0, rng.pick(&["0", "00", "0000000000000000000000"])),
        "2^64 or more" => tokens[any].text = too_big(rng),
        "missing number" => tokens.truncate(any),
        "left-over number" => leave_over(rng, tokens),
        "out of range" => {
            put_out_of_range(rng, puzzle, tokens);
        }
        "fault by fault" => put_fault_by_fault(rng, puzzle, tokens),
        "repeated map frame" => repeat_map_frame(rng, tokens),
        "word not rising" => sink_word(rng, tokens),
        "wrong count" => miscount(rng, tokens),
        "swapped numbers" => {
            let next = (any + 1) % tokens.len();
            tokens.swap(any, next);
        }
        _ => {}
    }
}

fn too_big(rng: &mut Prng) -> String {
    match rng.below(6) {
        0 => "18446744073709551616".into(),
        1 => "18446744073709551620".into(),
        2 => "36893488147419103232".into(),
        3 => "340282366920938463463374607431768211457".into(),
        4 => "9".repeat(rng.between((20, 3000)) as usize),
        _ => format!("1{}", "0".repeat(rng.between((20, 3000)) as usize)),
    }
}

fn leave_over(rng: &mut Prng, tokens: &mut Vec<Token>) {
    let texts = [
        "0",
        "1",
        "00",
        "18446744073709551615",
        "18446744073709551616",
        "7x",
    ];
    for _ in 0..rng.between((1, 3)) {
        let text = rng.pick(&texts).to_string();
        tokens.push(Token {
            role: Role::Value,
            text,
            opens: true,
        });
    }
}

/// The place of the number that is out of range now.
fn put_out_of_range(rng: &mut Prng, puzzle: &Puzzle, tokens: &mut [Token]) -> Option<usize> {
    let roles: BTreeSet<Role> = tokens.iter().map(|token| token.role).collect();
    let role = rng.pick(&roles.into_iter().collect::<Vec<_>>());
    let at = place_of_role(rng, tokens, role)?;
    tokens[at].text = outer_side(rng, role, puzzle)?.to_string();
    Some(at)
}

/// A number out of range with a second fault in it, at its end or right after
/// it: the first place decides, and 10 comes before 11 at one place.
fn put_fault_by_fault(rng: &mut Prng, puzzle: &Puzzle, tokens: &mut Vec<Token>) {
    let Some(at) = put_out_of_range(rng, puzzle, tokens) else {
        return;
    };
    let near = (at + rng.between((1, 2)) as usize).min(tokens.len() - 1);
    match rng.below(6) {
        0 => tokens[at].text.push('x'),
        1 => tokens[at].text.insert(0, '0'),
        2 => tokens[near].text = "x".into(),
        3 => tokens[near].text = "00".into(),
        4 => tokens[near].text = too_big(rng),
        _ => tokens.truncate(near),
    }
}

fn repeat_map_frame(rng: &mut Prng, tokens: &mut [Token]) {
    let from = place_of_role(rng, tokens, Role::MapFrame);
    let to = place_of_role(rng, tokens, Role::MapFrame);
    if let (Some(from), Some(to)) = (from, to) {
        tokens[to].text = tokens[from].text.clone();
    }
}

/// A word equal to one before it, or one lower, or 0.
fn sink_word(rng: &mut Prng, tokens: &mut [Token]) {
    let Some(at) = place_of_role(rng, tokens, Role::Word) else {
        return;
    };
    let before = tokens[..at]
        .iter()
        .rev()
        .find(|token| token.role == Role::Word);
    let before: u64 = before
        .and_then(|token| token.text.parse().ok())
        .unwrap_or(0);
    let lower = rng.pick(&[before, before.saturating_sub(1), 0, before + 1]);
    tokens[at].text = lower.to_string();
}

fn miscount(rng: &mut Prng, tokens: &mut [Token]) {
    let counts = [
        Role::FrameCount,
        Role::Cr3Count,
        Role::WordCount,
        Role::EventCount,
        Role::QuestionCount,
    ];
    let role = rng.pick(&counts);
    let Some(at) = place_of_role(rng, tokens, role) else {
        return;
    };
    let count: u64 = tokens[at].text.parse().unwrap_or(0);
    let wrong = rng.pick(&[count + 1, count.saturating_sub(1), count + 2, 0, 1]);
    tokens[at].text = wrong.to_string();
}

fn damage_bytes(rng: &mut Prng, kind: &str, text: &mut Vec<u8>) {
    match kind {
        "bad byte" => put_bad_byte(rng, text),
        "over-long" => make_over_long(rng, text),
        "byte noise" => make_noise(rng, text),
        "blanks only" => *text = only_blanks(rng),
        _ => {}
    }
}

fn put_bad_byte(rng: &mut Prng, text: &mut Vec<u8>) {
    let bad = match rng.below(4) {
        0 => rng.pick(
            &(0..=255)
                .filter(|b| !b"0123456789 \n".contains(b))
                .collect::<Vec<u8>>(),
        ),
        _ => rng.pick(b"\t\r/:x-+.,\0\x0b\x0c\xa0\xff_"),
    };
    let length = text.len() as u64;
    let place = rng.below(length + 1);
    let at = rng.pick(&[0, length, place, place, place, place]) as usize;
    if rng.percent(30) && at < text.len() {
        text[at] = bad;
    } else {
        text.insert(at, bad);
    }
}

fn make_over_long(rng: &mut Prng, text: &mut Vec<u8>) {
    if rng.percent(30) {
        put_bad_byte(rng, text);
    }
    let over = rng.pick(&[0, 1, 1, 2, 1000, 70_000]);
    pad(rng, text, TEXT_LIMIT + over);
}

fn make_noise(rng: &mut Prng, text: &mut Vec<u8>) {
    for _ in 0..rng.between((1, 3)) {
        let at = rng.below(text.len() as u64) as usize;
        match rng.below(3) {
            0 => drop(text.remove(at)),
            1 => text.insert(at, text[at]),
            _ => text[at] = rng.pick(b"0123456789 \n"),
        }
        if text.is_empty() {
            return;
        }
    }
}

fn only_blanks(rng: &mut Prng) -> Vec<u8> {
    let length = rng.pick(&[0, 1, 2, 5, TEXT_LIMIT - 1, TEXT_LIMIT, TEXT_LIMIT + 1]);
    match rng.below(3) {
        0 => vec![b'\n'; length],
        1 => vec![b' '; length],
        _ => (0..length).map(|_| rng.pick(b" \n")).collect(),
    }
}
