//! The shadow machine as a tree: each processor owns a root table, a table owns
//! the tables below it, and to free a subtree is to let go of it. Document 01's
//! flat buffers are made from this tree, and read into it, in `flat`.

use crate::rules::*;
use std::collections::{BTreeMap, BTreeSet};

/// A live shadow table; its level is its depth.
#[derive(Clone, PartialEq, Eq, Debug)]
pub struct Table {
    pub number: u64,
    pub shadowed: Guest,
    pub links: BTreeMap<u64, Link>,
}

/// A present shadow entry with its own rights.
#[derive(Clone, PartialEq, Eq, Debug)]
pub struct Link {
    pub rights: u8,
    pub below: Below,
}

#[derive(Clone, PartialEq, Eq, Debug)]
pub enum Below {
    Table(Table),
    Page(Guest),
}

#[derive(Clone, Copy, PartialEq, Eq, Debug)]
pub enum Slot {
    Empty,
    Complete {
        page: u64,
        frame: Guest,
        rights: u8,
    },
    Partial {
        page: u64,
        level: u32,
        table: u64,
        rights: u8,
    },
}

#[derive(Clone, PartialEq, Eq, Debug)]
pub struct Processor {
    pub root: Table,
    pub slots: [Slot; SLOTS],
}

#[derive(Clone, PartialEq, Eq, Debug)]
pub struct Machine {
    pub map: Map,
    pub words: Vec<u64>,
    pub share: u64,
    pub processors: Vec<Processor>,
}

#[derive(Clone, Copy, PartialEq, Eq, Debug)]
pub enum Answer {
    Done,
    Address(u64),
    Fault(u64),
    Again,
    NoStep,
}

impl Answer {
    /// The kind and the value of document 01.
    pub fn numbers(self) -> (u64, u64) {
        match self {
            Answer::Done => (0, 0),
            Answer::Address(address) => (1, address),
            Answer::Fault(code) => (2, code),
            Answer::Again => (3, 0),
            Answer::NoStep => (4, 0),
        }
    }
}

/// A table that a path has reached, with the rights of the path.
pub struct Reached<'a> {
    pub table: &'a Table,
    pub rights: u8,
}

impl Table {
    pub fn new(number: u64, shadowed: Guest) -> Table {
        Table {
            number,
            shadowed,
            links: BTreeMap::new(),
        }
    }

    fn table_below(&self, at: u64) -> Option<(&Table, u8)> {
        match self.links.get(&at) {
            Some(Link {
                rights,
                below: Below::Table(table),
            }) => Some((table, *rights)),
            _ => None,
        }
    }

    fn table_below_mut(&mut self, at: u64) -> Option<&mut Table> {
        match self.links.get_mut(&at) {
            Some(Link {
                below: Below::Table(table),
                ..
            }) => Some(table),
            _ => None,
        }
    }

    /// From a root: the table of this level on the page's path.
    pub fn reach(&self, page: u64, level: u32) -> Option<Reached<'_>> {
        let mut reached = Reached {
            table: self,
            rights: ALL_RIGHTS,
        };
        for above in (level + 1..=4).rev() {
            let (table, rights) = reached.table.table_below(index(page, above))?;
            reached = Reached {
                table,
                rights: reached.rights & rights,
            };
        }
        Some(reached)
    }

    /// From a root: the frame that the page's whole path finds.
    fn find(&self, page: u64) -> Option<(Guest, u8)> {
        let reached = self.reach(page, 1)?;
        match reached.table.links.get(&index(page, 1)) {
            Some(Link {
                rights,
                below: Below::Page(frame),
            }) => Some((*frame, reached.rights & rights)),
            _ => None,
        }
    }

    fn numbers(&self, into: &mut BTreeSet<u64>) {
        into.insert(self.number);
        for link in self.links.values() {
            if let Below::Table(table) = &link.below {
                table.numbers(into);
            }
        }
    }
}

impl Slot {
    fn serves(self, wanted: u64, needs: u8) -> Option<Guest> {
        match self {
            Slot::Complete {
                page,
                frame,
                rights,
            } if page == wanted && enough(rights, needs) => Some(frame),
            _ => None,
        }
    }

    fn survives_flush(self, flushed: u64) -> bool {
        matches!(self, Slot::Complete { page, .. } if page != flushed)
    }
}

impl Processor {
    pub fn new(root_number: u64, cr3: Guest) -> Processor {
        Processor {
            root: Table::new(root_number, cr3),
            slots: [Slot::Empty; SLOTS],
        }
    }

    /// "p's partial slots and its complete slots of page v are emptied"
    fn flush(&mut self, page: u64) {
        for slot in &mut self.slots {
            if !slot.survives_flush(page) {
                *slot = Slot::Empty;
            }
        }
    }

    fn invlpg(&mut self, page: u64) {
        let mut table = Some(&mut self.root);
        for level in [4, 3, 2] {
            table = table.and_then(|t| t.table_below_mut(index(page, level)));
        }
        if let Some(table) = table {
            table.links.remove(&index(page, 1));
        }
        self.flush(page);
    }

    fn begin(&mut self, page: u64, slot: usize) {
        let table = self.root.number;
        self.slots[slot] = Slot::Partial {
            page,
            level: 4,
            table,
            rights: ALL_RIGHTS,
        };
    }

    fn extend(&mut self, slot: usize) -> Answer {
        match self.extended(self.slots[slot]) {
            Some(next) => {
                self.slots[slot] = next;
                Answer::Done
            }
            None => Answer::NoStep,
        }
    }

    fn extended(&self, slot: Slot) -> Option<Slot> {
        let Slot::Partial {
            page,
            level,
            rights,
            ..
        } = slot
        else {
            return None;
        };
        let table = self.root.reach(page, level)?.table;
        let link = table.links.get(&index(page, level))?;
        let rights = rights & link.rights;
        Some(match &link.below {
            Below::Page(frame) => Slot::Complete {
                page,
                frame: *frame,
                rights,
            },
            Below::Table(table) => Slot::Partial {
                page,
                level: level - 1,
                table: table.number,
                rights,
            },
        })
    }

    /// The frame that a slot or the shadow path finds without the guest.
    fn serve(&self, page: u64, needs: u8) -> Option<Guest> {
        let by_slot = self.slots.iter().find_map(|slot| slot.serves(page, needs));
        by_slot.or_else(|| {
            self.root
                .find(page)
                .filter(|found| enough(found.1, needs))
                .map(|found| found.0)
        })
    }

    /// Put the guest's chain (levels 4, 3, 2) and its last link into the shadow.
    fn fill(&mut self, page: u64, chain: &[Entry; 3], last: Link, share: u64) {
        let missing = self.cut_differing(page, chain);
        if self.free_numbers(share).len() < missing {
            self.root.links.clear();
            self.slots = [Slot::Empty; SLOTS];
        }
        let mut free = self.free_numbers(share).into_iter();
        let mut table = &mut self.root;
        for (level, entry) in [4, 3, 2].into_iter().zip(chain) {
            let link = table.links.entry(index(page, level)).or_insert_with(|| {
                let number = free.next().expect("an emptied share has three free tables");
                let below = Below::Table(Table::new(number, Guest(entry.frame())));
                Link {
                    rights: entry.rights(),
                    below,
                }
            });
            let Below::Table(below) = &mut link.below else {
                unreachable!("entries above level 1 name tables");
            };
            table = below;
        }
        table.links.insert(index(page, 1), last);
        self.flush(page);
    }

    /// Let go of the first subtree on the path that differs from the guest's
    /// entry; how many of the path's three lower tables are missing then.
    fn cut_differing(&mut self, page: u64, chain: &[Entry; 3]) -> usize {
        let mut table = &mut self.root;
        for (depth, entry) in chain.iter().enumerate() {
            let at = index(page, 4 - depth as u32);
            let agrees = table.table_below(at).is_some_and(|(below, rights)| {
                rights == entry.rights() && below.shadowed == Guest(entry.frame())
            });
            if !agrees {
                table.links.remove(&at);
                return 3 - depth;
            }
            table = table
                .table_below_mut(at)
                .expect("it agrees, so it is there");
        }
        0
    }

    fn free_numbers(&self, share: u64) -> BTreeSet<u64> {
        let mut used = BTreeSet::new();
        self.root.numbers(&mut used);
        let first = self.root.number;
        (first..first + share)
            .filter(|number| !used.contains(number))
            .collect()
    }
}

/// A walk of the guest's tables that an access made.
enum Walked {
    Fault(u64),
    Found {
        entries: [Entry; 4],
        last_word: u64,
        frame: Guest,
    },
}

impl Machine {
    pub fn new(map: Map, words: Vec<u64>, share: u64, cr3s: &[u64]) -> Machine {
        let roots = (0u64..).map(|p| p * share);
        let processors = cr3s.iter().zip(roots);
        let processors = processors
            .map(|(&cr3, root)| Processor::new(root, Guest(cr3)))
            .collect();
        Machine {
            map,
            words,
            share,
            processors,
        }
    }

    /// What a lawful event does and answers.
    pub fn happen(&mut self, event: &Event) -> Answer {
        let Event { kind, a, b, .. } = *event;
        let processor = &mut self.processors[event.processor as usize];
        match kind {
            STORE => self.words[a as usize] = b,
            INVLPG => processor.invlpg(page_of(a)),
            CR3_WRITE => *processor = Processor::new(processor.root.number, Guest(a)),
            ACCESS => return self.access(event.processor as usize, a, b),
            BEGIN => processor.begin(page_of(a), b as usize),
            EXTEND => return processor.extend(a as usize),
            DROP => processor.slots[a as usize] = Slot::Empty,
            _ => unreachable!("refused before"),
        }
        Answer::Done
    }

    fn access(&mut self, p: usize, address: u64, request_number: u64) -> Answer {
        let page = page_of(address);
        let needs = request(request_number).needs;
        if let Some(frame) = self.processors[p].serve(page, needs) {
            return Answer::Address(host_address(self.map.host(frame), address));
        }
        let (entries, last_word, frame) = match self.walk_guest(p, page, request_number) {
            Walked::Fault(code) => return Answer::Fault(code),
            Walked::Found {
                entries,
                last_word,
                frame,
            } => (entries, last_word, frame),
        };
        if enough(needs, W) {
            self.words[last_word as usize] |= Entry::DIRTY;
        }
        let [e4, e3, e2, e1] = entries;
        let dirty = Entry(self.words[last_word as usize]).has(Entry::DIRTY);
        let rights = if dirty { e1.rights() } else { e1.rights() & !W };
        let last = Link {
            rights,
            below: Below::Page(frame),
        };
        self.processors[p].fill(page, &[e4, e3, e2], last, self.share);
        Answer::Again
    }

    /// "Each entry extended from gets A."
    fn walk_guest(&mut self, p: usize, page: u64, request_number: u64) -> Walked {
        let request = request(request_number);
        let mut walk = Walk::start(self.processors[p].root.shadowed);
        let mut entries = [Entry(0); 4];
        let mut last_word = 0;
        for seen in &mut entries {
            last_word = walk.next_word(page);
            let word = &mut self.words[last_word as usize];
            *seen = Entry(*word);
            match walk.step(*seen, self.map.guest_frames()) {
                Step::Fault(base) => return Walked::Fault(base + request.adds),
                Step::Extend(next) => walk = next,
            }
            *word |= Entry::ACCESSED;
        }
        if !enough(walk.rights, request.needs) {
            return Walked::Fault(1 + request.adds);
        }
        Walked::Found {
            entries,
            last_word,
            frame: walk.frame,
        }
    }
}
