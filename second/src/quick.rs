//! The calls again, written for speed: no allocation, one byte of eight bits for the rights of all held walks that stand on a
//! frame at a level, the map sorted once. `./flamecurl bench` times the proved library against these.

use crate::flat::{Reply, Sizes};
use crate::lists::{list_sizes_hold, ListSizes, Listed};
use crate::rules::*;

const FRAMES: usize = 256;

/// Which rights walks have that stand on each frame at each level; bit r is rights r.
struct Held {
    rights: [[u8; FRAMES]; 5],
}

/// The eight rights of `set`, each kept only as far as `own` allows.
fn narrowed(set: u8, own: u8) -> u8 {
    NARROWED[usize::from(own)][usize::from(set)]
}

static NARROWED: [[u8; 256]; 8] = {
    let mut table = [[0; 256]; 8];
    let mut at = 0;
    while at < 8 * 256 * 8 {
        let (own, set, rights) = (at / 2048, at / 8 % 256, at % 8);
        if set >> rights & 1 == 1 {
            table[own][set] |= 1 << (rights & own);
        }
        at += 1;
    }
    table
};

struct Now<'a> {
    held: Held,
    words: &'a mut [u64],
    guest_frames: u64,
    indices: [usize; 5],
}

impl Now<'_> {
    fn word(&self, level: usize, frame: usize) -> usize {
        512 * frame + self.indices[level]
    }

    /// These walks are held; follow them as far as today's words go.
    fn follow(&mut self, mut level: usize, mut frame: usize, mut set: u8) {
        loop {
            let new = set & !self.held.rights[level][frame];
            self.held.rights[level][frame] |= new;
            if new == 0 || level == 0 {
                return;
            }
            let Some((to, narrowed)) = self.step(level, frame, new) else {
                return;
            };
            (level, frame, set) = (level - 1, to, narrowed);
        }
    }

    fn step(&self, level: usize, frame: usize, set: u8) -> Option<(usize, u8)> {
        let entry = Entry(self.words[self.word(level, frame)]);
        let goes_on = entry.has(Entry::PRESENT) && entry.frame() < self.guest_frames;
        goes_on.then(|| (entry.frame() as usize, narrowed(set, entry.rights())))
    }

    /// Only walks that stand before this word can go on anew, upper levels first.
    fn store(&mut self, word: usize, value: u64) {
        self.words[word] = value;
        let (frame, at) = (word / 512, word % 512);
        for level in (1..=4).rev() {
            if self.indices[level] == at {
                let set = self.held.rights[level][frame];
                if set != 0 {
                    if let Some((to, narrowed)) = self.step(level, frame, set) {
                        self.follow(level - 1, to, narrowed);
                    }
                }
            }
        }
    }

    fn restart(&mut self, from: usize, cr3: u64) {
        let frames = self.guest_frames as usize;
        for level in from..=4 {
            self.held.rights[level][..frames].fill(0);
        }
        self.follow(4, cr3 as usize, 1 << ALL_RIGHTS);
    }

    fn happen(&mut self, event: &[u64], cr3: &mut u64, asked: &Question) {
        let own = event[0] == asked.processor;
        match event[1] {
            STORE => self.store(event[2] as usize, event[3]),
            INVLPG if own => {
                let spares = page_of(event[2]) != page_of(asked.address);
                self.restart(usize::from(spares), *cr3);
            }
            CR3_WRITE if own => {
                *cr3 = event[2];
                self.restart(0, *cr3);
            }
            _ => {}
        }
    }

    /// The pairs of outcomes, by rising frame and code.
    fn collect(&self, asked: &Question, outcomes: &mut [u64]) -> u64 {
        let request = request(asked.request);
        let serving = (0..8u8).fold(0, |set, r| set | u8::from(enough(r, request.needs)) << r);
        let frames = self.guest_frames as usize;
        let mut pairs = outcomes.chunks_exact_mut(2);
        let mut count = 0;
        let mut push = |tag: u64, value: u64| {
            let pair = pairs.next().expect("the buffer has room for G + 3 pairs");
            pair.copy_from_slice(&[tag, value]);
            count += 1;
        };
        let mut lacking = false;
        for (frame, &set) in self.held.rights[0][..frames].iter().enumerate() {
            lacking |= set & !serving != 0;
            if set & serving != 0 {
                push(0, frame as u64);
            }
        }
        let (absent, beyond) = self.stops();
        for (base, found) in [(0, absent), (1, lacking), (9, beyond)] {
            if found {
                push(1, base + request.adds);
            }
        }
        count
    }

    fn stops(&self) -> (bool, bool) {
        let (mut absent, mut beyond) = (false, false);
        for level in 1..=4 {
            for frame in 0..self.guest_frames as usize {
                if self.held.rights[level][frame] != 0 {
                    let entry = Entry(self.words[self.word(level, frame)]);
                    let present = entry.has(Entry::PRESENT);
                    absent |= !present;
                    beyond |= present && entry.frame() >= self.guest_frames;
                }
            }
        }
        (absent, beyond)
    }

    fn mark(&self, work: &mut [u8]) {
        let frames = self.guest_frames as usize;
        let levels = work.chunks_exact_mut(8 * frames).zip(&self.held.rights);
        for (bytes, sets) in levels {
            for (eight, set) in bytes.chunks_exact_mut(8).zip(sets) {
                for (rights, byte) in eight.iter_mut().enumerate() {
                    *byte = set >> rights & 1;
                }
            }
        }
    }
}

/// The map in order, for tests of repeats and of membership.
fn sorted(map: &[u64]) -> ([u64; FRAMES], usize) {
    let mut frames = [0; FRAMES];
    frames[..map.len()].copy_from_slice(map);
    frames[..map.len()].sort_unstable();
    (frames, map.len())
}

fn map_fits(map: &[u64]) -> bool {
    let (frames, n) = sorted(map);
    frames[n - 1] < FRAME_LIMIT && frames[..n].windows(2).all(|pair| pair[0] < pair[1])
}

/// Whether an event is refused by none of the tests.
fn fits(event: &Event, guest_frames: u64, processors: u64) -> bool {
    let Event { kind, a, b, .. } = *event;
    let numbers_fit = match kind {
        STORE => a < WORDS_PER_FRAME * guest_frames,
        INVLPG => address_allowed(a) && b == 0,
        CR3_WRITE => a < guest_frames && b == 0,
        ACCESS => address_allowed(a) && b < 6,
        BEGIN => address_allowed(a) && b < 8,
        EXTEND | DROP => a < 8 && b == 0,
        _ => false,
    };
    event.processor < processors && numbers_fit
}

/// The list call, as `lists::list`.
#[allow(clippy::too_many_arguments)] // the buffers of document 01, each by its name
pub fn list(
    sizes: ListSizes,
    map: &[u64],
    words: &mut [u64],
    cr3s: &[u64],
    events: &[u64],
    asked: Question,
    work: &mut [u8],
    outcomes: &mut [u64],
) -> Listed {
    let refused = |refusal| Listed { refusal, count: 0 };
    let lengths = [
        map.len(),
        words.len(),
        cr3s.len(),
        events.len(),
        work.len(),
        outcomes.len(),
    ];
    if !list_sizes_hold(sizes, lengths) {
        return refused(1);
    }
    if !map_fits(map) {
        return refused(2);
    }
    let guest_frames = sizes.guest_frames;
    if cr3s.iter().any(|&cr3| cr3 >= guest_frames) {
        return refused(7);
    }
    for e in events.chunks_exact(4) {
        let event = Event::new(e[0], e[1], e[2], e[3]);
        if !fits(&event, guest_frames, sizes.processors) {
            let refusal = event.refusal(guest_frames, sizes.processors);
            return refused(refusal.expect("an event that does not fit is refused"));
        }
    }
    if let Some(refusal) = asked.refusal(sizes.processors) {
        return refused(refusal);
    }
    let page = page_of(asked.address);
    let mut now = Now {
        held: Held {
            rights: [[0; FRAMES]; 5],
        },
        words,
        guest_frames,
        indices: [0, 1, 2, 3, 4].map(|level| index(page, level.max(1)) as usize),
    };
    let mut cr3 = cr3s[asked.processor as usize];
    now.follow(4, cr3 as usize, 1 << ALL_RIGHTS);
    for event in events.chunks_exact(4) {
        now.happen(event, &mut cr3, &asked);
    }
    now.mark(work);
    Listed {
        refusal: 0,
        count: now.collect(&asked, outcomes),
    }
}

/// The flat buffers of the machine.
pub struct Flat<'a> {
    pub sizes: Sizes,
    pub map: &'a [u64],
    pub pool: &'a [u64],
    pub records: &'a [u64],
    pub slots: &'a [u64],
}

impl Flat<'_> {
    fn tables(&self) -> u64 {
        self.sizes.processors * self.sizes.share
    }

    /// Refusal 1: the sizes are in their ranges and every buffer has its length.
    fn lengths_hold(&self, words: &[u64]) -> bool {
        let sizes = self.sizes;
        (1..=256).contains(&sizes.guest_frames)
            && (1..=4).contains(&sizes.processors)
            && (4..=16).contains(&sizes.share)
            && self.map.len() as u64 == sizes.guest_frames
            && words.len() as u64 == WORDS_PER_FRAME * sizes.guest_frames
            && self.pool.len() as u64 == WORDS_PER_FRAME * self.tables()
            && self.records.len() as u64 == 2 * self.tables()
            && self.slots.len() as u64 == 24 * sizes.processors
    }

    /// Refusal 2: the pool ends below 2^40, and the map's frames are distinct, below 2^40 and outside the pool.
    fn map_holds(&self) -> bool {
        let end = self.sizes.base.saturating_add(self.tables());
        let outside = |&frame: &u64| frame < self.sizes.base || frame >= end;
        end <= FRAME_LIMIT && map_fits(self.map) && self.map.iter().all(outside)
    }

    /// The table that a present entry above level 1 names.
    fn named(&self, entry: u64) -> u64 {
        Entry(entry).frame().wrapping_sub(self.sizes.base)
    }

    /// Every entry of the pool once: layout, names within the share, one level lower, once each; free tables are zeros.
    fn tables_lawful(&self) -> bool {
        let (frames, n) = sorted(self.map);
        let mut names = [0u8; 64];
        for t in 0..self.tables() as usize {
            let (level, shadowed) = (self.records[2 * t], self.records[2 * t + 1]);
            let root = (t as u64).is_multiple_of(self.sizes.share);
            if level > 4 || (level == 4) != root || shadowed >= self.sizes.guest_frames {
                return false;
            }
            if level == 0 && shadowed != 0 {
                return false;
            }
            for &entry in &self.pool[512 * t..512 * (t + 1)] {
                if entry != 0 && !self.entry_lawful(t, level, entry, &frames[..n], &mut names) {
                    return false;
                }
            }
        }
        let mut tables = (0..self.tables() as usize).zip(names);
        tables.all(|(t, count)| {
            let live = self.records[2 * t] != 0 && !(t as u64).is_multiple_of(self.sizes.share);
            count == u8::from(live)
        })
    }

    fn entry_lawful(
        &self,
        t: usize,
        level: u64,
        entry: u64,
        map: &[u64],
        names: &mut [u8],
    ) -> bool {
        let frame = Entry(entry).frame();
        if level == 0
            || entry != crate::flat::shadow_entry(Entry(entry).rights(), frame, level as u32)
        {
            return false;
        }
        if level == 1 {
            return map.binary_search(&frame).is_ok();
        }
        let named = self.named(entry);
        let same_share =
            named < self.tables() && named / self.sizes.share == t as u64 / self.sizes.share;
        if !same_share || self.records[2 * named as usize] != level - 1 {
            return false;
        }
        names[named as usize] = names[named as usize].saturating_add(1);
        true
    }

    /// The table of this level on the page's path, with the path's rights.
    fn reach(&self, p: u64, page: u64, level: u32) -> Option<(u64, u8)> {
        let (mut table, mut rights) = (p * self.sizes.share, ALL_RIGHTS);
        for above in (level + 1..=4).rev() {
            let entry = self.pool[(512 * table + index(page, above)) as usize];
            if entry == 0 {
                return None;
            }
            (table, rights) = (self.named(entry), rights & Entry(entry).rights());
        }
        Some((table, rights))
    }

    fn slots_lawful(&self) -> bool {
        self.slots.chunks_exact(3).enumerate().all(|(k, slot)| {
            let (mark, page, standing) = (slot[0], slot[1], slot[2]);
            let lawful = match mark {
                0 => page == 0 && standing == 0,
                1 => standing / 8 < self.sizes.guest_frames,
                2..=5 => {
                    let reached = self.reach(k as u64 / 8, page, mark as u32 - 1);
                    reached.is_some_and(|(t, rights)| standing == t * 8 + u64::from(rights))
                }
                _ => false,
            };
            page < PAGE_LIMIT && lawful
        })
    }

    /// The tests of an event call, and the answer of an access that a slot or the shadow serves.
    pub fn served_access(&self, words: &[u64], event: &Event) -> Option<Reply> {
        let refused = |refusal| {
            Some(Reply {
                refusal,
                kind: 0,
                value: 0,
            })
        };
        if !self.lengths_hold(words) {
            return refused(1);
        }
        if !self.map_holds() {
            return refused(2);
        }
        if !self.tables_lawful() || !self.slots_lawful() {
            return refused(3);
        }
        if let Some(refusal) = event.refusal(self.sizes.guest_frames, self.sizes.processors) {
            return refused(refusal);
        }
        let (p, page, needs) = (event.processor, page_of(event.a), request(event.b).needs);
        let slots = &self.slots[24 * p as usize..24 * (p as usize + 1)];
        let serving = slots
            .chunks_exact(3)
            .find(|s| s[0] == 1 && s[1] == page && enough((s[2] % 8) as u8, needs));
        let host = match serving {
            Some(slot) => self.map[(slot[2] / 8) as usize],
            None => {
                let (table, rights) = self.reach(p, page, 1)?;
                let entry = Entry(self.pool[(512 * table + index(page, 1)) as usize]);
                if entry.0 == 0 || !enough(rights & entry.rights(), needs) {
                    return None;
                }
                entry.frame()
            }
        };
        Some(Reply {
            refusal: 0,
            kind: 1,
            value: host_address(Host(host), event.a),
        })
    }
}
