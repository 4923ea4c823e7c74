//! What the lists and the machine share: frames, addresses, entries, requests,
//! events with their refusals, and one step of a walk.

/// A guest frame number.
#[derive(Clone, Copy, PartialEq, Eq, PartialOrd, Ord, Debug)]
pub struct Guest(pub u64);

/// A host frame number: another count than the guest's.
#[derive(Clone, Copy, PartialEq, Eq, PartialOrd, Ord, Debug)]
pub struct Host(pub u64);

pub const WORDS_PER_FRAME: u64 = 512;
pub const FRAME_LIMIT: u64 = 1 << 40;
pub const PAGE_LIMIT: u64 = 1 << 36;
pub const SLOTS: usize = 8;

pub const W: u8 = 1;
pub const U: u8 = 2;
pub const X: u8 = 4;
pub const ALL_RIGHTS: u8 = W + U + X;

/// "Each guest frame is mapped to one host frame by a fixed map."
#[derive(Clone, PartialEq, Eq, Debug)]
pub struct Map {
    hosts: Vec<Host>,
}

impl Map {
    pub fn new(frames: &[u64]) -> Map {
        Map {
            hosts: frames.iter().map(|&frame| Host(frame)).collect(),
        }
    }

    pub fn guest_frames(&self) -> u64 {
        self.hosts.len() as u64
    }

    pub fn host(&self, guest: Guest) -> Host {
        self.hosts[guest.0 as usize]
    }

    pub fn guest(&self, host: Host) -> Option<Guest> {
        self.hosts
            .iter()
            .position(|&h| h == host)
            .map(|at| Guest(at as u64))
    }
}

/// "host frame × 4096 + address mod 4096"
pub fn host_address(frame: Host, address: u64) -> u64 {
    frame.0 * 4096 + address % 4096
}

/// "An address is below 2^47, or at least 2^64 − 2^47."
pub fn address_allowed(address: u64) -> bool {
    let half = 1 << 47;
    address < half || address >= 0u64.wrapping_sub(half)
}

/// "Its page is bits 12 to 47."
pub fn page_of(address: u64) -> u64 {
    (address >> 12) % PAGE_LIMIT
}

/// The index at level 4 to 1 of an address in this page.
pub fn index(page: u64, level: u32) -> u64 {
    (page >> (9 * (level - 1))) % WORDS_PER_FRAME
}

/// A guest's page table entry.
#[derive(Clone, Copy, PartialEq, Eq, Debug)]
pub struct Entry(pub u64);

impl Entry {
    pub const PRESENT: u64 = 1 << 0;
    pub const RW: u64 = 1 << 1;
    pub const US: u64 = 1 << 2;
    pub const ACCESSED: u64 = 1 << 5;
    pub const DIRTY: u64 = 1 << 6;
    pub const NX: u64 = 1 << 63;

    pub fn has(self, bit: u64) -> bool {
        self.0 & bit != 0
    }

    pub fn frame(self) -> u64 {
        (self.0 >> 12) % FRAME_LIMIT
    }

    /// The rights this entry alone would leave.
    pub fn rights(self) -> u8 {
        let mut rights = 0;
        if self.has(Entry::RW) {
            rights += W;
        }
        if self.has(Entry::US) {
            rights += U;
        }
        if !self.has(Entry::NX) {
            rights += X;
        }
        rights
    }
}

pub struct Request {
    pub needs: u8,
    pub adds: u64,
}

/// Read, write, fetch; then the same with U besides.
pub const REQUESTS: [Request; 6] = [
    Request { needs: 0, adds: 0 },
    Request { needs: W, adds: 2 },
    Request { needs: X, adds: 16 },
    Request { needs: U, adds: 4 },
    Request {
        needs: W + U,
        adds: 6,
    },
    Request {
        needs: X + U,
        adds: 20,
    },
];

pub fn request(number: u64) -> &'static Request {
    &REQUESTS[number as usize]
}

pub fn enough(rights: u8, needs: u8) -> bool {
    rights & needs == needs
}

/// A walk that stands on a frame and reads its entry of `level` next; level 0
/// is a completed walk and `frame` the frame it found.
#[derive(Clone, Copy, PartialEq, Eq, PartialOrd, Ord, Debug)]
pub struct Walk {
    pub level: u32,
    pub frame: Guest,
    pub rights: u8,
}

/// What an entry does to the walk that reads it.
#[derive(Clone, Copy, PartialEq, Eq, Debug)]
pub enum Step {
    Fault(u64),
    Extend(Walk),
}

impl Walk {
    pub fn start(cr3: Guest) -> Walk {
        Walk {
            level: 4,
            frame: cr3,
            rights: ALL_RIGHTS,
        }
    }

    pub fn complete(self) -> bool {
        self.level == 0
    }

    /// The number of the guest word that this partial walk reads next.
    pub fn next_word(self, page: u64) -> u64 {
        WORDS_PER_FRAME * self.frame.0 + index(page, self.level)
    }

    /// "P is 0 gives a fault with base code 0; a frame of G or more gives base
    /// code 9; else the walk extends."
    pub fn step(self, entry: Entry, guest_frames: u64) -> Step {
        if !entry.has(Entry::PRESENT) {
            return Step::Fault(0);
        }
        if entry.frame() >= guest_frames {
            return Step::Fault(9);
        }
        Step::Extend(Walk {
            level: self.level - 1,
            frame: Guest(entry.frame()),
            rights: self.rights & entry.rights(),
        })
    }
}

pub const STORE: u64 = 1;
pub const INVLPG: u64 = 2;
pub const CR3_WRITE: u64 = 3;
pub const ACCESS: u64 = 4;
pub const BEGIN: u64 = 5;
pub const EXTEND: u64 = 6;
pub const DROP: u64 = 7;

#[derive(Clone, Copy, PartialEq, Eq, Debug)]
pub struct Event {
    pub processor: u64,
    pub kind: u64,
    pub a: u64,
    pub b: u64,
}

impl Event {
    pub fn new(processor: u64, kind: u64, a: u64, b: u64) -> Event {
        Event {
            processor,
            kind,
            a,
            b,
        }
    }

    pub fn is(&self, processor: u64, kind: u64) -> bool {
        self.processor == processor && self.kind == kind
    }

    /// The lowest refusal number that this event earns.
    pub fn refusal(&self, guest_frames: u64, processors: u64) -> Option<u64> {
        let Event {
            processor,
            kind,
            a,
            b,
        } = *self;
        let with_address = matches!(kind, INVLPG | ACCESS | BEGIN);
        let slot = match kind {
            BEGIN => b,
            EXTEND | DROP => a,
            _ => 0,
        };
        let b_must_be_0 = matches!(kind, INVLPG | CR3_WRITE | EXTEND | DROP);
        let broken = [
            (4, processor >= processors),
            (5, with_address && !address_allowed(a)),
            (6, kind == ACCESS && b > 5),
            (7, kind == CR3_WRITE && a >= guest_frames),
            (8, kind == STORE && a >= WORDS_PER_FRAME * guest_frames),
            (9, slot > 7),
            (11, !(STORE..=DROP).contains(&kind) || b_must_be_0 && b != 0),
        ];
        lowest(&broken)
    }
}

#[derive(Clone, Copy, PartialEq, Eq, Debug)]
pub struct Question {
    pub processor: u64,
    pub address: u64,
    pub request: u64,
}

impl Question {
    pub fn new(processor: u64, address: u64, request: u64) -> Question {
        Question {
            processor,
            address,
            request,
        }
    }

    pub fn refusal(&self, processors: u64) -> Option<u64> {
        lowest(&[
            (4, self.processor >= processors),
            (5, !address_allowed(self.address)),
            (6, self.request > 5),
        ])
    }
}

/// The first number whose rule is broken.
pub fn lowest(broken: &[(u64, bool)]) -> Option<u64> {
    broken
        .iter()
        .find(|(_, is_broken)| *is_broken)
        .map(|(number, _)| *number)
}

/// "a map frame repeats, is 2^40 or more"
pub fn map_broken(map: &[u64]) -> bool {
    let mut seen = std::collections::BTreeSet::new();
    map.iter()
        .any(|&frame| frame >= FRAME_LIMIT || !seen.insert(frame))
}
