//! Cases from a seed: lawful ones first, of every size, on states that runs reach and on lawful states that no run reaches;
//! then some of them are damaged.

use crate::case::{Call, Case};
use crate::damage;
use second::flat::lay_out;
use second::gen::{self, puzzle, Prng, Style, STYLES};
use second::machine::{Below, Link, Machine, Slot, Table};
use second::puzzle::Puzzle;
use second::rules::*;
use std::collections::BTreeMap;

/// The case with this number in the row that the seed begins.
pub fn case(seed: u64, number: u64) -> Case {
    let mut rng = Prng::new(seed ^ number.wrapping_mul(0xa24b_aed4_963e_e407));
    rng.draw();
    let rng = &mut rng;
    let mut case = match rng.weighted(&[29, 8, 43, 9, 6, 5]) {
        0 => list(rng),
        1 => setup(rng),
        2 => event(rng),
        3 => read(rng),
        4 => program(rng, Call::Answers),
        _ => program(rng, Call::Run),
    };
    if rng.percent(35) {
        damage::damage(rng, &mut case);
    }
    case
}

/// Numbers that a call must not read, or must leave.
pub fn noise(rng: &mut Prng, length: usize, limit: u64) -> Vec<u64> {
    (0..length).map(|_| rng.draw() % limit).collect()
}

fn some_more(rng: &mut Prng) -> usize {
    rng.pick(&[0, 0, 0, 1, 7, 100])
}

/// Sizes that only the library takes: G to 256, 4,096 events.
fn library_style(rng: &mut Prng) -> Style {
    let mut style = rng.pick(&STYLES[..5]);
    match rng.below(100) {
        0..=2 => {
            style.guest_frames = (200, 256);
            style.events = rng.pick(&[(4096, 4096), (3000, 4096), (1000, 2000)]);
        }
        3..=14 => {
            style.guest_frames = (17, 256);
            style.events = (0, 400);
        }
        _ => {}
    }
    style
}

/// Host frames up to 2^40 − 1, where the programs' texts end at 2^20.
fn stretch_map(rng: &mut Prng, map: &mut [u64]) {
    for at in 0..map.len() {
        let far = FRAME_LIMIT - 1 - rng.below(300);
        if rng.percent(10) && !map.contains(&far) {
            map[at] = far;
        }
    }
}

fn drawn_puzzle(rng: &mut Prng) -> Puzzle {
    let style = library_style(rng);
    let mut puzzle = puzzle(rng, &style);
    stretch_map(rng, &mut puzzle.map);
    puzzle
}

fn four(event: &Event) -> [u64; 4] {
    [event.processor, event.kind, event.a, event.b]
}

fn list(rng: &mut Prng) -> Case {
    let puzzle = drawn_puzzle(rng);
    list_of(rng, &puzzle)
}

/// A list call on a history that the rule by moments can still be tried on, moment by moment: at most 6 frames and 12 events
/// are what the second program's own tests try, so these are larger.
pub fn short_list(seed: u64, number: u64) -> Case {
    let mut rng = Prng::new(seed ^ number.wrapping_mul(0x9fb2_1c65_1e98_df25));
    rng.draw();
    let mut style = rng.pick(&STYLES[..5]);
    style.guest_frames = rng.pick(&[(7, 16), (7, 16), (17, 256)]);
    style.processors = (1, 4);
    style.events = rng.pick(&[(13, 24), (13, 24), (13, 24), (25, 48), (49, 80)]);
    style.weights = rng.pick(&[
        [90, 2, 1, 4, 3],
        [75, 12, 3, 5, 5],
        [70, 8, 12, 5, 5],
        [40, 20, 10, 15, 15],
    ]);
    let mut puzzle = puzzle(&mut rng, &style);
    stretch_map(&mut rng, &mut puzzle.map);
    list_of(&mut rng, &puzzle)
}

fn list_of(rng: &mut Prng, puzzle: &Puzzle) -> Case {
    let guest_frames = puzzle.map.len();
    let (more, farther) = (some_more(rng), some_more(rng));
    let question = rng.pick(&puzzle.questions);
    Case {
        call: Call::List,
        numbers: vec![question.processor, question.address, question.request],
        buffers: vec![
            puzzle.map.clone(),
            puzzle.start_words(),
            puzzle.cr3s.clone(),
            puzzle.events.iter().flat_map(four).collect(),
            noise(rng, 40 * guest_frames + more, 256),
            noise(rng, 2 * (guest_frames + 3) + farther, u64::MAX),
            noise(rng, 2, u64::MAX),
        ],
    }
}

/// A pool base with room for the pool, outside the map: at the ends of the host's memory, beside a mapped frame, anywhere.
fn pool_base(rng: &mut Prng, map: &[u64], tables: u64) -> u64 {
    loop {
        let mapped = rng.pick(map);
        let base = match rng.below(5) {
            0 => FRAME_LIMIT - tables,
            1 => 1 << 20,
            2 => mapped + 1,
            3 => mapped.wrapping_sub(tables),
            _ => rng.below(FRAME_LIMIT - tables),
        };
        let fits = base
            .checked_add(tables)
            .is_some_and(|end| end <= FRAME_LIMIT);
        if fits
            && !map
                .iter()
                .any(|&frame| frame >= base && frame - base < tables)
        {
            return base;
        }
    }
}

fn setup(rng: &mut Prng) -> Case {
    let puzzle = drawn_puzzle(rng);
    let (processors, share) = (puzzle.cr3s.len() as u64, rng.between((4, 16)));
    let tables = processors * share;
    let base = pool_base(rng, &puzzle.map, tables);
    Case {
        call: Call::Setup,
        numbers: vec![puzzle.guest_frames(), processors, share, base],
        buffers: vec![
            puzzle.map,
            puzzle.cr3s,
            noise(rng, 512 * tables as usize, u64::MAX),
            noise(rng, 2 * tables as usize, u64::MAX),
            noise(rng, 24 * processors as usize, u64::MAX),
        ],
    }
}

fn event(rng: &mut Prng) -> Case {
    let puzzle = drawn_puzzle(rng);
    let share = rng.pick(&[4, 4, 4, 5, 6, 9, 16]);
    let base = pool_base(rng, &puzzle.map, puzzle.cr3s.len() as u64 * share);
    let mut machine = Machine::new(
        Map::new(&puzzle.map),
        puzzle.start_words(),
        share,
        &puzzle.cr3s,
    );
    let past = rng.below(puzzle.events.len().min(300) as u64 + 1) as usize;
    for event in &puzzle.events[..past] {
        machine.happen(event);
    }
    let next = match puzzle.events.get(past) {
        Some(event) if rng.percent(70) => *event,
        _ => any_event(rng, &puzzle),
    };
    if rng.percent(45) {
        unreached(rng, &mut machine, page_of(next.a));
    }
    let shadow = lay_out(&machine, base);
    let mut numbers = vec![puzzle.guest_frames(), puzzle.cr3s.len() as u64, share, base];
    numbers.extend(four(&next));
    Case {
        call: Call::Event,
        numbers,
        buffers: vec![
            puzzle.map,
            machine.words,
            shadow.pool,
            shadow.records,
            shadow.slots,
            noise(rng, 3, u64::MAX),
        ],
    }
}

/// An access to something that an event of the puzzle speaks of, or another event of it.
fn any_event(rng: &mut Prng, puzzle: &Puzzle) -> Event {
    let question = rng.pick(&puzzle.questions);
    let access = Event::new(
        question.processor,
        ACCESS,
        question.address,
        rng.below(REQUESTS.len() as u64),
    );
    match puzzle.events.is_empty() || rng.percent(60) {
        true => access,
        false => rng.pick(&puzzle.events),
    }
}

/// A lawful state that no run need reach: trees of other shapes, other rights and frames in the tables, tables under other
/// numbers, slots of any content, mostly of this page. Partial slots then stand where their pages lead.
fn unreached(rng: &mut Prng, machine: &mut Machine, page: u64) {
    let guest_frames = machine.map.guest_frames();
    for processor in &mut machine.processors {
        let first = processor.root.number;
        if rng.percent(50) {
            prune(rng, &mut processor.root);
            hang_tables(rng, &mut processor.root, machine.share, guest_frames, page);
        }
        let numbers = shuffled(rng, first + 1, machine.share - 1);
        change_table(rng, &mut processor.root, guest_frames, first, &numbers);
        for slot in &mut processor.slots {
            if rng.percent(50) {
                *slot = any_slot(rng, guest_frames, page);
            }
            *slot = settled(*slot, &processor.root);
        }
    }
}

/// Some entries become absent, at any level, with all that hangs below them.
fn prune(rng: &mut Prng, table: &mut Table) {
    table.links.retain(|_, _| !rng.percent(15));
    for link in table.links.values_mut() {
        if let Below::Table(below) = &mut link.below {
            prune(rng, below);
        }
    }
}

fn numbers_used(table: &Table, used: &mut Vec<u64>) {
    used.push(table.number);
    for link in table.links.values() {
        if let Below::Table(below) = &link.below {
            numbers_used(below, used);
        }
    }
}

/// Free tables hung below tables of any level: many without an entry, some with pages, most where this page leads.
fn hang_tables(rng: &mut Prng, root: &mut Table, share: u64, guest_frames: u64, page: u64) {
    let mut used = Vec::new();
    numbers_used(root, &mut used);
    let first = root.number;
    for number in (first..first + share).filter(|number| !used.contains(number)) {
        if rng.percent(60) {
            hang(rng, root, 4, number, guest_frames, page);
        }
    }
}

/// Hangs a table below this one or one of its subtables; at level 1, where no table can hang, a page instead.
fn hang(rng: &mut Prng, table: &mut Table, level: u32, number: u64, guest_frames: u64, page: u64) {
    let at = match rng.below(4) {
        0 => rng.pick(&[0, 1, 2, 255, 256, 511]),
        _ => index(page, level),
    };
    let rights = rng.pick(&[7, 7, 7, 3, 5, 6, 0]);
    if level == 1 {
        let below = Below::Page(Guest(rng.below(guest_frames)));
        table.links.insert(at, Link { rights, below });
        return;
    }
    match table.links.get_mut(&at) {
        Some(Link {
            below: Below::Table(below),
            ..
        }) => hang(rng, below, level - 1, number, guest_frames, page),
        _ => {
            let mut hung = Table::new(number, Guest(rng.below(guest_frames)));
            if level == 2 && rng.percent(60) {
                hang(rng, &mut hung, 1, number, guest_frames, page);
            }
            let below = Below::Table(hung);
            table.links.insert(at, Link { rights, below });
        }
    }
}

fn shuffled(rng: &mut Prng, first: u64, count: u64) -> BTreeMap<u64, u64> {
    let mut numbers: Vec<u64> = (first..first + count).collect();
    for at in (1..numbers.len()).rev() {
        numbers.swap(at, rng.below(at as u64 + 1) as usize);
    }
    (first..).zip(numbers).collect()
}

fn change_table(
    rng: &mut Prng,
    table: &mut Table,
    guest_frames: u64,
    root: u64,
    numbers: &BTreeMap<u64, u64>,
) {
    if table.number != root {
        table.number = numbers[&table.number];
    }
    if rng.percent(20) {
        table.shadowed = Guest(rng.below(guest_frames));
    }
    for link in table.links.values_mut() {
        if rng.percent(25) {
            link.rights = rng.below(8) as u8;
        }
        match &mut link.below {
            Below::Table(below) => change_table(rng, below, guest_frames, root, numbers),
            Below::Page(frame) => {
                if rng.percent(25) {
                    *frame = Guest(rng.below(guest_frames));
                }
            }
        }
    }
}

fn any_slot(rng: &mut Prng, guest_frames: u64, page: u64) -> Slot {
    let rights = rng.below(8) as u8;
    let page = match rng.below(5) {
        0 => rng.below(PAGE_LIMIT),
        _ => page,
    };
    match rng.below(3) {
        0 => Slot::Partial {
            page,
            level: rng.between((1, 4)) as u32,
            table: 0,
            rights,
        },
        _ => Slot::Complete {
            page,
            frame: Guest(rng.below(guest_frames)),
            rights,
        },
    }
}

/// "A partial slot stands on the table that its page reaches from the root, with that path's rights."
fn settled(slot: Slot, root: &Table) -> Slot {
    let Slot::Partial { page, level, .. } = slot else {
        return slot;
    };
    match root.reach(page, level) {
        Some(reached) => Slot::Partial {
            page,
            level,
            table: reached.table.number,
            rights: reached.rights,
        },
        None => Slot::Empty,
    }
}

fn text(rng: &mut Prng) -> Vec<u64> {
    let sample = gen::sample(rng.draw(), rng.draw());
    sample.text.iter().map(|&byte| u64::from(byte)).collect()
}

fn read(rng: &mut Prng) -> Case {
    let text = text(rng);
    let mut buffers = vec![text];
    buffers.extend([16, 4, 8192, 1024, 48, 7].map(|length| noise(rng, length, u64::MAX)));
    Case {
        call: Call::Read,
        numbers: Vec::new(),
        buffers,
    }
}

fn program(rng: &mut Prng, call: Call) -> Case {
    Case {
        call,
        numbers: Vec::new(),
        buffers: vec![text(rng), noise(rng, 16384, 256), noise(rng, 4, u64::MAX)],
    }
}
