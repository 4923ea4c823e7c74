//! Puzzle texts from a seed: valid ones that lean towards what solvers get
//! wrong (overlapping and self-mapped tables, stores into every level, faults of
//! all kinds, long lists), and ones damaged in each way that document 01 names.
//! `sketch` makes puzzles, `tokens` writes them, `damage` breaks the text.

mod damage;
mod prng;
mod sketch;
mod tokens;

pub use damage::DAMAGES;
pub use prng::Prng;
pub use sketch::{address_of, puzzle};
pub use tokens::{plain, tokens, Role, Token};

use crate::puzzle::{Puzzle, TEXT_LIMIT};
use crate::rules::*;
use damage::{damaged, inner_side};
use sketch::host_frames;
use std::collections::BTreeMap;
use tokens::{pad, write};

pub struct Sample {
    pub kind: &'static str,
    pub text: Vec<u8>,
}

/// The text with this number in the row that the seed begins.
pub fn sample(seed: u64, number: u64) -> Sample {
    let mut rng = Prng::new(seed ^ number.wrapping_mul(0xd134_2543_de82_ef95));
    rng.draw();
    if rng.percent(40) {
        return damaged(&mut rng);
    }
    valid(&mut rng)
}

/// How big a puzzle is and what happens in it.
#[derive(Clone)]
pub struct Style {
    pub kind: &'static str,
    pub guest_frames: (u64, u64),
    pub processors: (u64, u64),
    pub events: (u64, u64),
    pub questions: (u64, u64),
    /// stores, INVLPGs, CR3 writes, accesses, work on slots
    pub weights: [u64; 5],
    pub hot_addresses: (u64, u64),
    pub other_words: (u64, u64),
}

const SMALL: Style = Style {
    kind: "small",
    guest_frames: (1, 6),
    processors: (1, 2),
    events: (0, 12),
    questions: (1, 4),
    weights: [40, 10, 5, 30, 15],
    hot_addresses: (1, 3),
    other_words: (0, 2),
};

pub const STYLES: [Style; 6] = [
    SMALL,
    Style {
        kind: "many answers",
        guest_frames: (8, 16),
        processors: (1, 1),
        events: (20, 80),
        questions: (1, 6),
        weights: [90, 1, 1, 5, 3],
        hot_addresses: (1, 2),
        ..SMALL
    },
    Style {
        kind: "shadow run",
        guest_frames: (4, 16),
        processors: (1, 4),
        events: (20, 120),
        weights: [20, 6, 3, 48, 23],
        hot_addresses: (2, 6),
        ..SMALL
    },
    Style {
        kind: "few frames",
        guest_frames: (1, 3),
        processors: (1, 3),
        events: (10, 60),
        weights: [30, 6, 4, 45, 15],
        hot_addresses: (1, 5),
        ..SMALL
    },
    Style {
        kind: "quiet list",
        guest_frames: (3, 10),
        events: (5, 30),
        questions: (4, 16),
        weights: [70, 14, 6, 5, 5],
        ..SMALL
    },
    Style {
        kind: "largest",
        guest_frames: (16, 16),
        processors: (4, 4),
        events: (256, 256),
        questions: (16, 16),
        weights: [45, 5, 2, 33, 15],
        hot_addresses: (3, 6),
        other_words: (0, 2000),
    },
];

fn valid(rng: &mut Prng) -> Sample {
    match rng.below(40) {
        0 => return every_word(rng),
        1 => return full_text(rng),
        2..=4 => return sides(rng),
        5 => return longest_list(rng),
        _ => {}
    }
    let style = STYLES[rng.weighted(&[30, 15, 25, 18, 18, 4])].clone();
    let puzzle = puzzle(rng, &style);
    Sample {
        kind: style.kind,
        text: write(rng, &tokens(&puzzle)),
    }
}

/// All 512×G words are given, most with short values so that they fit.
fn every_word(rng: &mut Prng) -> Sample {
    let mut puzzle = puzzle(rng, &STYLES[3]);
    let mut words: BTreeMap<u64, u64> = (0..WORDS_PER_FRAME * puzzle.guest_frames())
        .map(|w| (w, 1))
        .collect();
    words.extend(puzzle.words.iter().copied());
    puzzle.words = words.into_iter().collect();
    Sample {
        kind: "every word",
        text: plain(&tokens(&puzzle)),
    }
}

/// Exactly 65,536 bytes.
fn full_text(rng: &mut Prng) -> Sample {
    let puzzle = puzzle(rng, &STYLES[5]);
    let mut text = write(rng, &tokens(&puzzle));
    pad(rng, &mut text, TEXT_LIMIT);
    Sample {
        kind: "full text",
        text,
    }
}

/// One page whose lists have up to G + 3 outcomes: its last entry goes through
/// all frames; then one level 1 table lacks the entry and another leads too far.
fn longest_list(rng: &mut Prng) -> Sample {
    let address = address_of([0; 4].map(|_| rng.below(512)), 8);
    let page = page_of(address);
    let word = |table: u64, level: u32| WORDS_PER_FRAME * table + index(page, level);
    let to = |frame: u64| frame << 12 | Entry::PRESENT | Entry::RW | Entry::US;
    let rights = [
        Entry::RW,
        Entry::US,
        Entry::NX,
        Entry::RW | Entry::US | Entry::NX,
    ];
    let mut events = Vec::new();
    for frame in 0..16 {
        if rng.percent(30) {
            events.push(Event::new(
                0,
                STORE,
                word(3, 1),
                to(rng.below(16)) ^ rng.pick(&rights),
            ));
        }
        events.push(Event::new(0, STORE, word(3, 1), to(frame)));
    }
    events.push(Event::new(0, STORE, word(3, 1), 0));
    events.push(Event::new(0, STORE, word(2, 2), to(4)));
    if rng.percent(20) {
        events.insert(
            rng.below(20) as usize % events.len(),
            Event::new(0, INVLPG, address, 0),
        );
    }
    let puzzle = Puzzle {
        map: host_frames(rng, 16),
        cr3s: vec![0],
        words: vec![
            (word(0, 4), to(1)),
            (word(1, 3), to(2)),
            (word(2, 2), to(3)),
            (word(4, 1), to(16)),
        ],
        events,
        questions: (0..6)
            .map(|request| Question::new(0, address, request))
            .collect(),
    };
    Sample {
        kind: "longest list",
        text: write(rng, &tokens(&puzzle)),
    }
}

/// Numbers at the inner sides of their ranges.
fn sides(rng: &mut Prng) -> Sample {
    let puzzle = puzzle(rng, &SMALL);
    let mut tokens = tokens(&puzzle);
    for token in &mut tokens {
        if rng.percent(25) {
            if let Some(side) = inner_side(rng, token.role, &puzzle) {
                token.text = side.to_string();
            }
        }
    }
    Sample {
        kind: "sides",
        text: write(rng, &tokens),
    }
}
