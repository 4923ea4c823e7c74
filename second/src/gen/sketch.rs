//! Random puzzles in a style: paths for a few hot addresses through tables drawn
//! at random, then events that follow those paths as they stand at the time.

use super::{Prng, Style};
use crate::puzzle::{Puzzle, POOL_BASE};
use crate::rules::*;
use std::collections::BTreeMap;

/// A puzzle under way, with the words and CR3s as its stores have left them.
struct Sketch<'a> {
    rng: &'a mut Prng,
    guest_frames: u64,
    indices: Vec<u64>,
    hot: Vec<u64>,
    words: BTreeMap<u64, u64>,
    cr3s: Vec<u64>,
    events: Vec<Event>,
}

pub fn puzzle(rng: &mut Prng, style: &Style) -> Puzzle {
    let guest_frames = rng.between(style.guest_frames);
    let map = host_frames(rng, guest_frames);
    let processors = rng.between(style.processors);
    let cr3s: Vec<u64> = (0..processors).map(|_| rng.below(guest_frames)).collect();
    let mut sketch = Sketch {
        rng,
        guest_frames,
        indices: Vec::new(),
        hot: Vec::new(),
        words: BTreeMap::new(),
        cr3s: cr3s.clone(),
        events: Vec::new(),
    };
    sketch.choose_addresses(style);
    sketch.lay_paths();
    sketch.lay_other_words(style);
    let words = sketch
        .words
        .iter()
        .map(|(&word, &value)| (word, value))
        .collect();
    let count = sketch.rng.between(style.events) as usize;
    while sketch.events.len() < count {
        sketch.add_events(style);
    }
    sketch.events.truncate(count);
    let questions = sketch.rng.between(style.questions);
    let questions = (0..questions).map(|_| sketch.question()).collect();
    Puzzle {
        map,
        cr3s,
        words,
        events: sketch.events,
        questions,
    }
}

pub fn host_frames(rng: &mut Prng, count: u64) -> Vec<u64> {
    let mut frames = Vec::new();
    while (frames.len() as u64) < count {
        let frame = match rng.below(4) {
            0 => rng.below(POOL_BASE),
            1 => rng.pick(&[0, 1, POOL_BASE - 1, POOL_BASE - 2]),
            2 => rng.below(2 * count),
            _ => 100 + rng.below(2 * count),
        };
        if !frames.contains(&frame) {
            frames.push(frame);
        }
    }
    frames
}

/// The address with these indices at levels 4 to 1.
pub fn address_of(indices: [u64; 4], offset: u64) -> u64 {
    let low = indices.iter().fold(0, |page, index| page * 512 + index) * 4096 + offset;
    if indices[0] >= 256 {
        low | !0 << 48
    } else {
        low
    }
}

impl Sketch<'_> {
    fn choose_addresses(&mut self, style: &Style) {
        let kinds = self.rng.between((1, 5));
        self.indices = (0..kinds)
            .map(|_| match self.rng.below(3) {
                0 => self.rng.below(512),
                _ => self.rng.pick(&[0, 0, 1, 2, 255, 256, 511]),
            })
            .collect();
        let hot = self.rng.between(style.hot_addresses);
        for _ in 0..hot {
            let address = self.new_address();
            self.hot.push(address);
        }
    }

    fn new_address(&mut self) -> u64 {
        let offset = self.offset();
        let mut indices = [0; 4].map(|_| self.rng.pick(&self.indices));
        if self.rng.percent(20) {
            indices = [0; 4].map(|_| self.rng.below(512));
        }
        if !self.hot.is_empty() && self.rng.percent(60) {
            let near = page_of(self.rng.pick(&self.hot));
            let changed = self.rng.below(4) as usize;
            for (at, level) in [4, 3, 2, 1].into_iter().enumerate() {
                if at != changed {
                    indices[at] = index(near, level);
                }
            }
        }
        address_of(indices, offset)
    }

    fn offset(&mut self) -> u64 {
        match self.rng.below(3) {
            0 => self.rng.below(4096),
            _ => self.rng.pick(&[0, 8, 4095]),
        }
    }

    /// A hot address most of the time, else its page's other bytes or another.
    fn address(&mut self) -> u64 {
        let hot = self.rng.pick(&self.hot);
        match self.rng.below(20) {
            0 => self.new_address(),
            1 => self.any_address(),
            2..=4 => hot - hot % 4096 + self.offset(),
            _ => hot,
        }
    }

    fn any_address(&mut self) -> u64 {
        let indices = [0; 4].map(|_| self.rng.below(512));
        address_of(indices, 0)
    }

    fn frame(&mut self) -> u64 {
        self.rng.below(self.guest_frames)
    }

    fn processor(&mut self) -> u64 {
        self.rng.below(self.cr3s.len() as u64)
    }

    /// A path from every CR3 for the hot addresses; tables are drawn at random,
    /// so they overlap and map themselves.
    fn lay_paths(&mut self) {
        for p in 0..self.cr3s.len() {
            for address in self.hot.clone() {
                if self.rng.percent(88) {
                    self.lay_path(self.cr3s[p], page_of(address));
                }
            }
        }
        for word in self.words.keys().copied().collect::<Vec<_>>() {
            if self.rng.percent(6) {
                let value = self.odd_entry();
                self.words.insert(word, value);
            }
        }
    }

    fn lay_path(&mut self, cr3: u64, page: u64) {
        let mut frame = cr3;
        for level in [4, 3, 2, 1] {
            let word = WORDS_PER_FRAME * frame + index(page, level);
            let new = self.good_entry();
            let entry = Entry(*self.words.entry(word).or_insert(new));
            frame = entry.frame();
        }
    }

    fn lay_other_words(&mut self, style: &Style) {
        let count = self.rng.between(style.other_words);
        for _ in 0..count {
            let word = self.rng.below(WORDS_PER_FRAME * self.guest_frames);
            let value = self.value(0);
            self.words.entry(word).or_insert(value);
        }
    }

    /// Present, to a frame of the guest, mostly with all rights.
    fn good_entry(&mut self) -> u64 {
        let frame = self.frame();
        let mut entry = Entry::PRESENT | frame << 12;
        for (bit, chance) in [
            (Entry::RW, 92),
            (Entry::US, 92),
            (Entry::NX, 6),
            (Entry::ACCESSED, 30),
            (Entry::DIRTY, 30),
        ] {
            if self.rng.percent(chance) {
                entry |= bit;
            }
        }
        if self.rng.percent(10) {
            let ignored = 0x7ff0_0000_0000_0f98;
            entry |= self.rng.draw() & ignored;
        }
        entry
    }

    /// Not present, or with a frame that the guest does not have, or anything.
    fn odd_entry(&mut self) -> u64 {
        let good = self.good_entry();
        let far = self.rng.pick(&[
            self.guest_frames,
            self.guest_frames + 1,
            1 << 20,
            FRAME_LIMIT - 1,
        ]);
        match self.rng.below(5) {
            0 => 0,
            1 => good & !Entry::PRESENT,
            2 => far << 12 | Entry::PRESENT | Entry::RW,
            3 => far << 12,
            _ => self.rng.draw(),
        }
    }

    fn value(&mut self, now: u64) -> u64 {
        match self.rng.below(20) {
            0 | 1 => self.odd_entry(),
            2 => 0,
            3..=6 => {
                let bits = [
                    Entry::RW,
                    Entry::US,
                    Entry::NX,
                    Entry::ACCESSED,
                    Entry::DIRTY,
                    Entry::PRESENT,
                ];
                now ^ self.rng.pick(&bits)
            }
            7 => now,
            _ => self.good_entry(),
        }
    }

    /// The words that p's walk of this page reads now, from level 4 down.
    fn words_on_path(&self, p: u64, page: u64) -> Vec<u64> {
        let mut words = Vec::new();
        let mut walk = Walk::start(Guest(self.cr3s[p as usize]));
        while !walk.complete() {
            let word = walk.next_word(page);
            words.push(word);
            match walk.step(Entry(self.word_now(word)), self.guest_frames) {
                Step::Extend(next) => walk = next,
                Step::Fault(_) => break,
            }
        }
        words
    }

    fn word_now(&self, word: u64) -> u64 {
        self.words.get(&word).copied().unwrap_or(0)
    }

    /// One of them; the lowest as often as two of the others.
    fn word_on_path(&mut self) -> u64 {
        let p = self.processor();
        let page = page_of(self.rng.pick(&self.hot));
        let words = self.words_on_path(p, page);
        let depth = self.rng.pick(&[0, 1, 2, 3, 3]);
        words[depth.min(words.len() - 1)]
    }

    fn word(&mut self) -> u64 {
        match self.rng.below(20) {
            0 => self.rng.pick(&[0, WORDS_PER_FRAME * self.guest_frames - 1]),
            1..=3 => WORDS_PER_FRAME * self.frame() + self.rng.pick(&self.indices),
            _ => self.word_on_path(),
        }
    }

    fn slot(&mut self) -> u64 {
        match self.rng.below(2) {
            0 => self.rng.below(8),
            _ => self.rng.pick(&[0, 1, 7]),
        }
    }

    fn add(&mut self, processor: u64, kind: u64, a: u64, b: u64) {
        self.events.push(Event::new(processor, kind, a, b));
    }

    fn add_events(&mut self, style: &Style) {
        let p = self.processor();
        match self.rng.weighted(&style.weights) {
            0 => self.add_store(p),
            1 => {
                let address = self.address();
                self.add(p, INVLPG, address, 0);
            }
            2 => {
                let frame = if self.rng.percent(30) {
                    self.cr3s[p as usize]
                } else {
                    self.frame()
                };
                self.cr3s[p as usize] = frame;
                self.add(p, CR3_WRITE, frame, 0);
            }
            3 => self.add_accesses(p),
            _ => self.add_slot_work(p),
        }
    }

    fn add_store(&mut self, p: u64) {
        let word = self.word();
        let value = self.value(self.word_now(word));
        self.store(p, word, value);
    }

    fn store(&mut self, p: u64, word: u64, value: u64) {
        self.words.insert(word, value);
        self.add(p, STORE, word, value);
    }

    /// Stores that let p's walk of this address come to its end.
    fn make_way(&mut self, p: u64, address: u64) {
        let page = page_of(address);
        let mut walk = Walk::start(Guest(self.cr3s[p as usize]));
        while !walk.complete() {
            let word = walk.next_word(page);
            let mut entry = Entry(self.word_now(word));
            if let Step::Fault(_) = walk.step(entry, self.guest_frames) {
                entry = Entry(self.good_entry());
                self.store(p, word, entry.0);
            }
            if let Step::Extend(next) = walk.step(entry, self.guest_frames) {
                walk = next;
            }
        }
    }

    /// Another table in the place of one on the path, with the same rights.
    fn change_table(&mut self, p: u64, address: u64) {
        let words = self.words_on_path(p, page_of(address));
        let upper = &words[..words.len().min(3)];
        let word = self.rng.pick(upper);
        let frame = self.frame();
        let value = self.word_now(word) & !((FRAME_LIMIT - 1) << 12) | frame << 12;
        self.store(p, word, value);
        self.make_way(p, address);
    }

    /// A filled path, then another table in it, seen by a put after INVLPG or
    /// by the neighbour's.
    fn add_changed_table(&mut self, p: u64) {
        let address = self.address();
        self.make_way(p, address);
        self.add(p, ACCESS, address, 0);
        self.change_table(p, address);
        let seen_by = if self.rng.percent(50) {
            address
        } else {
            self.address()
        };
        self.add(p, INVLPG, seen_by, 0);
        for address in [seen_by, address, seen_by] {
            self.add(p, ACCESS, address, 0);
        }
    }

    /// A complete slot that outlives its path: a neighbour's access frees a
    /// table that both pages use.
    fn add_stale_slot(&mut self, p: u64, slot: u64) {
        let address = self.address();
        let flipped = 1 << self.rng.pick(&[12, 21, 30]);
        self.make_way(p, address);
        self.add(p, ACCESS, address, 0);
        self.add(p, BEGIN, address, slot);
        for _ in 0..4 {
            self.add(p, EXTEND, slot, 0);
        }
        self.change_table(p, address ^ flipped);
        self.add(p, ACCESS, address ^ flipped, 0);
        let request = self.rng.below(6);
        self.add(p, ACCESS, address, request);
        self.add(p, ACCESS, address, 0);
    }

    /// An access, often put again at once, often with another request.
    fn add_accesses(&mut self, p: u64) {
        if self.rng.percent(12) {
            return self.add_changed_table(p);
        }
        let address = self.address();
        if self.rng.percent(60) {
            self.make_way(p, address);
        }
        let mut request = self.rng.below(6);
        self.add(p, ACCESS, address, request);
        while self.rng.percent(45) {
            if self.rng.percent(30) {
                self.add_store(p);
            }
            if self.rng.percent(40) {
                request = self.rng.below(6);
            }
            self.add(p, ACCESS, address, request);
        }
    }

    /// A walk of the hardware's own, with other things in between.
    fn add_slot_work(&mut self, p: u64) {
        let slot = self.slot();
        if self.rng.percent(15) {
            let kind = self.rng.pick(&[EXTEND, DROP]);
            return self.add(p, kind, slot, 0);
        }
        if self.rng.percent(15) {
            return self.add_stale_slot(p, slot);
        }
        let address = self.address();
        if self.rng.percent(60) {
            self.make_way(p, address);
            self.add(p, ACCESS, address, 0);
        }
        self.add(p, BEGIN, address, slot);
        let steps = self.rng.pick(&[0, 1, 2, 3, 4, 4, 4, 4, 5]);
        for _ in 0..steps {
            if self.rng.percent(8) {
                self.add_store(p);
            }
            if self.rng.percent(8) {
                let other = self.address();
                let kind = self.rng.pick(&[INVLPG, ACCESS]);
                self.add(p, kind, other, 0);
            }
            self.add(p, EXTEND, slot, 0);
        }
        if self.rng.percent(40) {
            let page = self.rng.pick(&self.hot);
            self.add(p, INVLPG, page, 0);
        }
        if self.rng.percent(50) {
            let request = self.rng.below(6);
            self.add(p, ACCESS, address, request);
        }
    }

    fn question(&mut self) -> Question {
        let processor = self.processor();
        let address = self.address();
        Question::new(processor, address, self.rng.below(6))
    }
}
