//! Document 01's flat buffers: the tree laid out into pool, records and slots,
//! the buffers read back into the tree (or a state rule found broken), and the
//! library's setup and event calls on such buffers.

use crate::machine::*;
use crate::rules::*;
use std::collections::BTreeMap;

/// The sizes and the pool base that a call is given beside its buffers.
#[derive(Clone, Copy, PartialEq, Eq, Debug)]
pub struct Sizes {
    pub guest_frames: u64,
    pub processors: u64,
    pub share: u64,
    pub base: u64,
}

/// Pool, records and slots.
#[derive(Clone, PartialEq, Eq, Debug)]
pub struct Shadow {
    pub pool: Vec<u64>,
    pub records: Vec<u64>,
    pub slots: Vec<u64>,
}

/// What a call answers: refusal, kind, value.
#[derive(Clone, Copy, PartialEq, Eq, Debug)]
pub struct Reply {
    pub refusal: u64,
    pub kind: u64,
    pub value: u64,
}

impl Reply {
    fn refused(refusal: u64) -> Reply {
        Reply {
            refusal,
            kind: 0,
            value: 0,
        }
    }
}

impl Sizes {
    fn tables(&self) -> u64 {
        self.processors * self.share
    }

    fn hold(&self) -> bool {
        (1..=256).contains(&self.guest_frames)
            && (1..=4).contains(&self.processors)
            && (4..=16).contains(&self.share)
    }

    fn shadow_lengths_hold(&self, shadow: &Shadow) -> bool {
        shadow.pool.len() as u64 == 512 * self.tables()
            && shadow.records.len() as u64 == 2 * self.tables()
            && shadow.slots.len() as u64 == 24 * self.processors
    }

    /// "a map frame repeats, is 2^40 or more, or lies in the pool; or the pool
    /// passes 2^40"
    fn map_or_pool_broken(&self, map: &[u64]) -> bool {
        let end = self.base.saturating_add(self.tables());
        end > FRAME_LIMIT
            || map_broken(map)
            || map.iter().any(|frame| (self.base..end).contains(frame))
    }
}

/// A present shadow entry: "A always 1", "D is 0" above level 1, "D equals RW"
/// at level 1.
pub fn shadow_entry(rights: u8, frame: u64, level: u32) -> u64 {
    let mut entry = Entry::PRESENT | Entry::ACCESSED | frame << 12;
    if enough(rights, W) {
        entry |= Entry::RW;
        if level == 1 {
            entry |= Entry::DIRTY;
        }
    }
    if enough(rights, U) {
        entry |= Entry::US;
    }
    if !enough(rights, X) {
        entry |= Entry::NX;
    }
    entry
}

/// The flat buffers of a machine.
pub fn lay_out(machine: &Machine, base: u64) -> Shadow {
    let processors = machine.processors.len() as u64;
    let mut shadow = zeros(processors, machine.share);
    for (p, processor) in machine.processors.iter().enumerate() {
        lay_table(&processor.root, 4, base, &machine.map, &mut shadow);
        for (slot, numbers) in processor
            .slots
            .iter()
            .zip(shadow.slots[24 * p..].chunks_mut(3))
        {
            numbers.copy_from_slice(&slot_numbers(*slot));
        }
    }
    shadow
}

pub fn zeros(processors: u64, share: u64) -> Shadow {
    let tables = (processors * share) as usize;
    Shadow {
        pool: vec![0; 512 * tables],
        records: vec![0; 2 * tables],
        slots: vec![0; 24 * processors as usize],
    }
}

fn lay_table(table: &Table, level: u32, base: u64, map: &Map, shadow: &mut Shadow) {
    let number = table.number as usize;
    shadow.records[2 * number] = u64::from(level);
    shadow.records[2 * number + 1] = table.shadowed.0;
    for (&at, link) in &table.links {
        let frame = match &link.below {
            Below::Page(frame) => map.host(*frame).0,
            Below::Table(below) => {
                lay_table(below, level - 1, base, map, shadow);
                base + below.number
            }
        };
        shadow.pool[512 * number + at as usize] = shadow_entry(link.rights, frame, level);
    }
}

fn slot_numbers(slot: Slot) -> [u64; 3] {
    match slot {
        Slot::Empty => [0, 0, 0],
        Slot::Complete {
            page,
            frame,
            rights,
        } => [1, page, frame.0 * 8 + u64::from(rights)],
        Slot::Partial {
            page,
            level,
            table,
            rights,
        } => [u64::from(level) + 1, page, table * 8 + u64::from(rights)],
    }
}

/// The machine in lawfully sized buffers, or nothing if a state rule is broken.
pub fn read_flat(sizes: &Sizes, map: &[u64], words: &[u64], shadow: &Shadow) -> Option<Machine> {
    let map = Map::new(map);
    let mut reader = Reader {
        sizes,
        map: &map,
        shadow,
        read: vec![false; sizes.tables() as usize],
    };
    let processors: Option<Vec<Processor>> =
        (0..sizes.processors).map(|p| reader.processor(p)).collect();
    let processors = processors?;
    if !reader.rest_is_free() {
        return None;
    }
    Some(Machine {
        map,
        words: words.to_vec(),
        share: sizes.share,
        processors,
    })
}

struct Reader<'a> {
    sizes: &'a Sizes,
    map: &'a Map,
    shadow: &'a Shadow,
    read: Vec<bool>,
}

impl Reader<'_> {
    fn processor(&mut self, p: u64) -> Option<Processor> {
        let root = self.table(p, p * self.sizes.share, 4)?;
        let mut slots = [Slot::Empty; SLOTS];
        for (i, slot) in slots.iter_mut().enumerate() {
            *slot = self.slot(&root, 24 * p as usize + 3 * i)?;
        }
        Some(Processor { root, slots })
    }

    /// A table of this level in p's share that no entry has named before.
    fn table(&mut self, p: u64, number: u64, level: u32) -> Option<Table> {
        let first = p * self.sizes.share;
        if !(first..first + self.sizes.share).contains(&number) {
            return None;
        }
        let at = number as usize;
        let [record_level, shadowed] =
            [self.shadow.records[2 * at], self.shadow.records[2 * at + 1]];
        let fits = record_level == u64::from(level) && shadowed < self.sizes.guest_frames;
        if !fits || std::mem::replace(&mut self.read[at], true) {
            return None;
        }
        let mut links = BTreeMap::new();
        for i in 0..WORDS_PER_FRAME {
            let word = self.shadow.pool[512 * at + i as usize];
            if word != 0 {
                links.insert(i, self.link(p, word, level)?);
            }
        }
        Some(Table {
            number,
            shadowed: Guest(shadowed),
            links,
        })
    }

    /// A word is rightly laid out if writing what it says gives it again.
    fn link(&mut self, p: u64, word: u64, level: u32) -> Option<Link> {
        let rights = Entry(word).rights();
        let frame = Entry(word).frame();
        if word != shadow_entry(rights, frame, level) {
            return None;
        }
        let below = if level == 1 {
            Below::Page(self.map.guest(Host(frame))?)
        } else {
            Below::Table(self.table(p, frame.checked_sub(self.sizes.base)?, level - 1)?)
        };
        Some(Link { rights, below })
    }

    fn slot(&self, root: &Table, at: usize) -> Option<Slot> {
        let numbers = &self.shadow.slots[at..at + 3];
        let [mark, page, standing] = [numbers[0], numbers[1], numbers[2]];
        let (place, rights) = (standing / 8, (standing % 8) as u8);
        if page >= PAGE_LIMIT {
            return None;
        }
        match mark {
            0 => (page == 0 && standing == 0).then_some(Slot::Empty),
            1 => {
                let lawful = place < self.sizes.guest_frames;
                lawful.then_some(Slot::Complete {
                    page,
                    frame: Guest(place),
                    rights,
                })
            }
            2..=5 => {
                let level = mark as u32 - 1;
                let reached = root.reach(page, level)?;
                let lawful = reached.table.number == place && reached.rights == rights;
                lawful.then_some(Slot::Partial {
                    page,
                    level,
                    table: place,
                    rights,
                })
            }
            _ => None,
        }
    }

    /// "a free table is all zeros, record too"; what no root reaches is free.
    fn rest_is_free(&self) -> bool {
        let tables = self
            .shadow
            .pool
            .chunks(512)
            .zip(self.shadow.records.chunks(2));
        let mut rest = tables.zip(&self.read).filter(|(_, read)| !**read);
        rest.all(|((pool, record), _)| pool.iter().chain(record).all(|&number| number == 0))
    }
}

/// The setup call; the old contents of the buffers are not read.
pub fn setup(sizes: &Sizes, map: &[u64], cr3s: &[u64], shadow: &mut Shadow) -> Reply {
    let lengths_hold = sizes.hold()
        && map.len() as u64 == sizes.guest_frames
        && cr3s.len() as u64 == sizes.processors
        && sizes.shadow_lengths_hold(shadow);
    if !lengths_hold {
        return Reply::refused(1);
    }
    let outside = cr3s.iter().any(|&cr3| cr3 >= sizes.guest_frames);
    if let Some(refusal) = lowest(&[(2, sizes.map_or_pool_broken(map)), (7, outside)]) {
        return Reply::refused(refusal);
    }
    let machine = Machine::new(Map::new(map), Vec::new(), sizes.share, cr3s);
    *shadow = lay_out(&machine, sizes.base);
    Reply {
        refusal: 0,
        kind: 0,
        value: 0,
    }
}

/// The event call: 1, 2, 3, then the event's own refusals; 12 never comes.
pub fn event(
    sizes: &Sizes,
    map: &[u64],
    words: &mut Vec<u64>,
    shadow: &mut Shadow,
    event: &Event,
) -> Reply {
    let lengths_hold = sizes.hold()
        && map.len() as u64 == sizes.guest_frames
        && words.len() as u64 == WORDS_PER_FRAME * sizes.guest_frames
        && sizes.shadow_lengths_hold(shadow);
    if !lengths_hold {
        return Reply::refused(1);
    }
    if sizes.map_or_pool_broken(map) {
        return Reply::refused(2);
    }
    let Some(mut machine) = read_flat(sizes, map, words, shadow) else {
        return Reply::refused(3);
    };
    if let Some(refusal) = event.refusal(sizes.guest_frames, sizes.processors) {
        return Reply::refused(refusal);
    }
    let (kind, value) = machine.happen(event).numbers();
    *shadow = lay_out(&machine, sizes.base);
    *words = machine.words;
    Reply {
        refusal: 0,
        kind,
        value,
    }
}
