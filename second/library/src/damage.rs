//! A case with one or two things wrong, or at the side of being wrong.

use crate::case::{Call, Case, MAP};
use second::gen::Prng;
use second::rules::*;

pub fn damage(rng: &mut Prng, case: &mut Case) {
    let times = rng.pick(&[1, 1, 1, 2]);
    for _ in 0..times {
        match case.call {
            Call::List => damage_list(rng, case),
            Call::Setup => damage_setup(rng, case),
            Call::Event => damage_event(rng, case),
            Call::Read | Call::Answers | Call::Run => damage_length(rng, case),
        }
    }
}

fn damage_list(rng: &mut Prng, case: &mut Case) {
    match rng.below(10) {
        0 | 1 => damage_length(rng, case),
        2 => damage_map(rng, case),
        3 => damage_cr3(rng, case),
        4..=7 => damage_events(rng, case),
        _ => damage_number(rng, case, 0),
    }
}

fn damage_setup(rng: &mut Prng, case: &mut Case) {
    match rng.below(6) {
        0 => damage_length(rng, case),
        1 => damage_map(rng, case),
        2 => damage_cr3(rng, case),
        3 => damage_base(rng, case),
        _ => damage_number(rng, case, 0),
    }
}

fn damage_event(rng: &mut Prng, case: &mut Case) {
    match rng.below(20) {
        0 => damage_length(rng, case),
        1 => damage_map(rng, case),
        2 => damage_base(rng, case),
        3 => damage_number(rng, case, 0),
        4..=8 => damage_number(rng, case, 4),
        9..=13 => damage_pool(rng, case),
        14..=16 => damage_record(rng, case),
        _ => damage_slot(rng, case),
    }
}

/// One element more or less in a buffer, none at all, or a frame more than there may be.
fn damage_length(rng: &mut Prng, case: &mut Case) {
    let at = rng.below(case.buffers.len() as u64) as usize;
    if case.call.buffers()[at] == "text" && rng.percent(50) {
        case.buffers[at].resize(65536 + rng.below(2) as usize, u64::from(b' '));
        return;
    }
    let buffer = &mut case.buffers[at];
    let length = match rng.below(6) {
        0 => 0,
        1 => buffer.len() + 1,
        2 => buffer.len() + rng.below(600) as usize,
        3 => rng.below(buffer.len() as u64 + 1) as usize,
        _ => buffer.len().saturating_sub(1),
    };
    buffer.resize(length, 0);
}

fn damage_map(rng: &mut Prng, case: &mut Case) {
    let map = &case.buffers[MAP];
    if map.is_empty() {
        return;
    }
    let at = rng.below(map.len() as u64) as usize;
    let bad = match rng.below(5) {
        0 => FRAME_LIMIT,
        1 => FRAME_LIMIT - 1,
        2 => u64::MAX,
        3 if case.call != Call::List => {
            let tables = case.numbers[1].wrapping_mul(case.numbers[2]);
            let inside = rng.pick(&[0, 1, tables.wrapping_sub(1), tables]);
            case.numbers[3].wrapping_add(inside)
        }
        _ => rng.pick(map),
    };
    case.buffers[MAP][at] = bad;
}

fn guest_frames(case: &Case) -> u64 {
    case.buffers[MAP].len() as u64
}

fn damage_cr3(rng: &mut Prng, case: &mut Case) {
    let sides = [
        guest_frames(case),
        guest_frames(case).wrapping_sub(1),
        u64::MAX,
    ];
    let bad = rng.pick(&sides);
    let cr3s = case.buffer_mut("cr3s");
    if !cr3s.is_empty() {
        let at = rng.below(cr3s.len() as u64) as usize;
        cr3s[at] = bad;
    }
}

/// "the pool passes 2^40": equal is fine, and the sum must not overflow.
fn damage_base(rng: &mut Prng, case: &mut Case) {
    let tables = case.numbers[1].wrapping_mul(case.numbers[2]);
    let end = FRAME_LIMIT.wrapping_sub(tables);
    case.numbers[3] = rng.pick(&[
        end,
        end.wrapping_add(1),
        FRAME_LIMIT,
        u64::MAX,
        u64::MAX - 3,
        0,
    ]);
}

/// A number out of its range, or at its side.
fn side(rng: &mut Prng, name: &str, frames: u64) -> u64 {
    let words = WORDS_PER_FRAME * frames;
    match name {
        "frames" => rng.pick(&[0, 257, 256, frames + 1, u64::MAX]),
        "processors" => rng.pick(&[0, 1, 2, 4, 5, u64::MAX]),
        "share" => rng.pick(&[0, 3, 4, 16, 17, 1 << 32, u64::MAX]),
        "base" => rng.draw() % (FRAME_LIMIT + 100),
        "processor" => rng.pick(&[1, 2, 3, 4, u64::MAX]),
        "kind" => rng.pick(&[0, 1, 2, 3, 4, 5, 6, 7, 8, u64::MAX]),
        "request" => rng.pick(&[5, 6, 7, u64::MAX]),
        _ => rng.pick(&[
            0,
            1,
            5,
            6,
            7,
            8,
            frames.wrapping_sub(1),
            frames,
            words.wrapping_sub(1),
            words,
            (1 << 47) - 1,
            1 << 47,
            0u64.wrapping_sub(1 << 47),
            0u64.wrapping_sub((1 << 47) + 1),
            u64::MAX,
        ]),
    }
}

fn damage_number(rng: &mut Prng, case: &mut Case, from: usize) {
    let at = from + rng.below((case.numbers.len() - from) as u64) as usize;
    case.numbers[at] = side(rng, case.call.numbers()[at], guest_frames(case));
}

const EVENT: [&str; 4] = ["processor", "kind", "a", "b"];

fn damage_events(rng: &mut Prng, case: &mut Case) {
    let frames = guest_frames(case);
    let events = case.buffer_mut("events");
    if events.is_empty() || rng.percent(3) {
        let count = rng.pick(&[4097, 4096, 1]);
        events.resize(4 * count, 0);
        return;
    }
    let at = rng.below(events.len() as u64) as usize;
    events[at] = side(rng, EVENT[at % 4], frames);
}

/// A place in the buffer, mostly one that is not 0 already.
fn place(rng: &mut Prng, buffer: &[u64]) -> Option<usize> {
    let filled: Vec<usize> = (0..buffer.len()).filter(|&i| buffer[i] != 0).collect();
    if !filled.is_empty() && rng.percent(70) {
        return Some(rng.pick(&filled));
    }
    (!buffer.is_empty()).then(|| rng.below(buffer.len() as u64) as usize)
}

fn damage_pool(rng: &mut Prng, case: &mut Case) {
    let base = case.numbers[3];
    let mapped = rng.pick(
        &case.buffers[MAP]
            .iter()
            .copied()
            .chain([0])
            .collect::<Vec<_>>(),
    );
    let pool = case.buffer_mut("pool");
    let (Some(at), Some(from)) = (place(rng, pool), place(rng, pool)) else {
        return;
    };
    match rng.below(6) {
        0 => pool[at] ^= 1 << rng.below(64),
        1 => pool[at] = pool[from],
        2 => pool.swap(at, from),
        3 => pool[at] = 0,
        4 => pool[at] = (base.wrapping_add(rng.below(20)) << 12) | 33,
        _ => pool[at] = (mapped << 12) | rng.pick(&[33, 35, 39, 99, 103]),
    }
}

fn damage_record(rng: &mut Prng, case: &mut Case) {
    let frames = guest_frames(case);
    let records = case.buffer_mut("records");
    if let Some(at) = place(rng, records) {
        records[at] = match at % 2 {
            0 => rng.pick(&[0, 1, 2, 3, 4, 5, u64::MAX]),
            _ => rng.pick(&[0, 1, frames.wrapping_sub(1), frames, u64::MAX]),
        };
    }
}

fn damage_slot(rng: &mut Prng, case: &mut Case) {
    let frames = guest_frames(case);
    let slots = case.buffer_mut("slots");
    if let Some(at) = place(rng, slots) {
        slots[at] = match at % 3 {
            0 => rng.pick(&[0, 1, 2, 3, 4, 5, 6, u64::MAX]),
            1 => rng.pick(&[0, 1, PAGE_LIMIT - 1, PAGE_LIMIT, u64::MAX]),
            _ => rng.pick(&[0, 7, slots[at] ^ 1, 8 * frames - 1, 8 * frames, u64::MAX]),
        };
    }
}
