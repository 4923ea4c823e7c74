//! The script of the proved program `script` (crates/script), played by the second program's own setup and event
//! calls: every line that it prints must be the one expected there.

use second::flat::{self, Reply, Shadow, Sizes};
use second::rules::Event;

/// Whole buffers; `given` says how much of each a call gets.
struct Desk {
    given: Vec<u64>,
    map: Vec<u64>,
    words: Vec<u64>,
    pool: Vec<u64>,
    records: Vec<u64>,
    slots: Vec<u64>,
}

fn put(xs: &mut [u64], numbers: &[u64]) {
    for pair in numbers.chunks_exact(2) {
        xs[pair[0] as usize] = pair[1];
    }
}

fn shown(xs: &[u64], places: &[u64]) -> String {
    let values = places
        .iter()
        .map(|&place| format!(" {}", xs[place as usize]));
    values.collect()
}

impl Desk {
    fn sizes(&self) -> Sizes {
        Sizes {
            guest_frames: self.given[0],
            processors: self.given[1],
            share: self.given[2],
            base: self.given[3],
        }
    }

    fn part(&self, xs: &[u64], length: usize) -> Vec<u64> {
        xs[..self.given[length] as usize].to_vec()
    }

    fn call(&mut self, name: &str, numbers: &[u64]) -> String {
        let map = self.part(&self.map, 4);
        let mut words = self.part(&self.words, 5);
        let mut shadow = Shadow {
            pool: self.part(&self.pool, 6),
            records: self.part(&self.records, 7),
            slots: self.part(&self.slots, 8),
        };
        let before = (words.clone(), shadow.clone());
        let sizes = self.sizes();
        let reply = if name == "cr3s" {
            flat::setup(&sizes, &map, numbers, &mut shadow)
        } else {
            let event = Event {
                processor: numbers[0],
                kind: numbers[1],
                a: numbers[2],
                b: numbers[3],
            };
            flat::event(&sizes, &map, &mut words, &mut shadow, &event)
        };
        let kept = if before == (words.clone(), shadow.clone()) {
            "unchanged"
        } else {
            "changed"
        };
        self.words[..words.len()].copy_from_slice(&words);
        self.pool[..shadow.pool.len()].copy_from_slice(&shadow.pool);
        self.records[..shadow.records.len()].copy_from_slice(&shadow.records);
        self.slots[..shadow.slots.len()].copy_from_slice(&shadow.slots);
        let Reply {
            refusal,
            kind,
            value,
        } = reply;
        format!(" {refusal} {kind} {value} {kept}")
    }

    /// What a line prints, if it prints anything.
    fn take(&mut self, line: &str) -> Option<String> {
        let mut parts = line.split(' ');
        let name = parts.next().unwrap_or("");
        if name == "--" {
            return Some(line.to_string());
        }
        let numbers: Vec<u64> = parts.map(|n| n.parse().expect("a number")).collect();
        match name {
            "given" => self.given = numbers,
            "map" => self.map = numbers,
            "new" => self.words.fill(0),
            "words" => put(&mut self.words, &numbers),
            "pool" => put(&mut self.pool, &numbers),
            "records" => put(&mut self.records, &numbers),
            "slots" => put(&mut self.slots, &numbers),
            _ => return Some(format!("{line}:{}", self.told(name, &numbers))),
        }
        None
    }

    fn told(&mut self, name: &str, numbers: &[u64]) -> String {
        match name {
            "cr3s" | "event" => self.call(name, numbers),
            "Words" => shown(&self.words, numbers),
            "Pool" => shown(&self.pool, numbers),
            "Records" => shown(&self.records, numbers),
            "Slots" => shown(&self.slots, numbers),
            _ => panic!("no such line: {name}"),
        }
    }
}

#[test]
fn the_library_script_says_the_same() {
    let mut desk = Desk {
        given: Vec::new(),
        map: Vec::new(),
        words: vec![0; 3072],
        pool: vec![0; 10240],
        records: vec![0; 40],
        slots: vec![0; 120],
    };
    let script = include_str!("../../crates/script/stdin");
    let expected = include_str!("../../crates/script/stdout");
    let mut lines = expected.lines();
    for said in script.lines().filter_map(|line| desk.take(line)) {
        assert_eq!(Some(said.as_str()), lines.next());
    }
    assert_eq!(lines.next(), None);
}
