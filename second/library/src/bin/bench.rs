//! `bench`: the proved library's calls and the second program's, on the same input, in the same run. Each time is the fastest
//! of several, both sides in turn, so that what else the machine does counts little. The results are compared as well.

use flamecurl::numbers as proved;
use second::flat::{lay_out, Shadow, Sizes};
use second::gen::{plain, puzzle, tokens, Prng, STYLES};
use second::lists::ListSizes;
use second::machine::{Below, Link, Machine, Table};
use second::puzzle::{self, Puzzle};
use second::quick::{self, Flat};
use second::report;
use second::rules::*;
use std::collections::BTreeMap;
use std::hint::black_box;
use std::time::Instant;

/// Microseconds that the proved call and the other one took.
#[derive(Clone, Copy)]
struct Times {
    proved: f64,
    rust: f64,
}

impl Times {
    /// The fastest of `rounds`; each call gets what `fresh` makes, untimed.
    fn of<T, R: PartialEq>(
        rounds: usize,
        mut fresh: impl FnMut() -> T,
        mut proved: impl FnMut(&mut T) -> R,
        mut rust: impl FnMut(&mut T) -> R,
    ) -> Times {
        let mut times = Times {
            proved: f64::MAX,
            rust: f64::MAX,
        };
        for _ in 0..rounds {
            let (mut one, mut other) = (fresh(), fresh());
            let (time, left) = timed(|| proved(&mut one));
            times.proved = times.proved.min(time);
            let (time, right) = timed(|| rust(&mut other));
            times.rust = times.rust.min(time);
            assert!(left == right, "the two sides differ");
        }
        times
    }

    fn ratio(self) -> f64 {
        self.proved / self.rust
    }
}

fn timed<R>(call: impl FnOnce() -> R) -> (f64, R) {
    let start = Instant::now();
    let result = black_box(call());
    (start.elapsed().as_secs_f64() * 1e6, result)
}

fn main() {
    lists();
    events();
    texts();
}

// ---- the list call

const ASKED: Question = Question {
    processor: 0,
    address: 0x1234_5678_9000,
    request: 0,
};

/// A present entry to any frame, with any rights.
fn entry(rng: &mut Prng, guest_frames: u64) -> u64 {
    let rights = rng.pick(&[
        Entry::RW | Entry::US,
        Entry::RW | Entry::US,
        Entry::RW,
        Entry::US,
        0,
    ]);
    rng.below(guest_frames) << 12 | Entry::PRESENT | rights
}

/// Half of the stores change an entry that a walk of the page can read.
fn store(rng: &mut Prng, guest_frames: u64) -> [u64; 4] {
    let level = rng.between((1, 4)) as u32;
    let at = match rng.below(2) {
        0 => index(page_of(ASKED.address), level),
        _ => rng.below(512),
    };
    let word = 512 * rng.below(guest_frames) + at;
    [rng.below(2), STORE, word, entry(rng, guest_frames)]
}

/// "stores only, flush-heavy, mixed"
fn row(rng: &mut Prng, mix: &str, guest_frames: u64) -> [u64; 4] {
    let flush = match mix {
        "stores" => 0,
        "flushes" => 50,
        _ => 10,
    };
    if rng.percent(flush) {
        let page = rng.pick(&[ASKED.address, ASKED.address, 4096]);
        return match rng.below(4) {
            0 => [rng.below(2), CR3_WRITE, rng.below(guest_frames), 0],
            _ => [rng.below(2), INVLPG, page, 0],
        };
    }
    if mix == "mixed" && rng.percent(40) {
        return [rng.below(2), ACCESS, ASKED.address, rng.below(6)];
    }
    store(rng, guest_frames)
}

/// The CR3s; for "refused" the second one is out of range, so that the call ends once sizes and map are tested.
fn cr3s(mix: &str, guest_frames: u64) -> [u64; 2] {
    match mix {
        "refused" => [0, guest_frames],
        _ => [0, 1],
    }
}

fn list_times(guest_frames: u64, mix: &str, count: usize) -> Times {
    let mut rng = Prng::new(guest_frames + count as u64);
    let map: Vec<u64> = (0..guest_frames).map(|frame| 5000 - 7 * frame).collect();
    let start: Vec<u64> = (0..512 * guest_frames)
        .map(|_| entry(&mut rng, guest_frames))
        .collect();
    let events: Vec<u64> = (0..count)
        .flat_map(|_| row(&mut rng, mix, guest_frames))
        .collect();
    let sizes = ListSizes {
        guest_frames,
        processors: 2,
        events: count as u64,
    };
    let (frames, cr3s) = (guest_frames as usize, cr3s(mix, guest_frames));
    let question = flamecurl::Question {
        processor: ASKED.processor,
        address: ASKED.address,
        request: ASKED.request,
    };
    let fresh = || {
        (
            start.clone(),
            vec![0u8; 40 * frames],
            vec![0; 2 * frames + 6],
        )
    };
    Times::of(
        40,
        fresh,
        |(words, work, outcomes)| {
            let mut answer = [0; 2];
            proved::list(
                &map,
                words,
                &cr3s,
                &events,
                work,
                outcomes,
                &mut answer,
                question,
            );
            (answer, outcomes.clone())
        },
        |(words, work, outcomes)| {
            let listed = quick::list(sizes, &map, words, &cr3s, &events, ASKED, work, outcomes);
            ([listed.refusal, listed.count], outcomes.clone())
        },
    )
}

fn list_row(guest_frames: u64, mix: &str, count: usize) -> Times {
    let times = list_times(guest_frames, mix, count);
    println!(
        "  {guest_frames:>4} {count:>7} {mix:<8} {:>9.1} {:>9.1} {:>6.2}",
        times.proved,
        times.rust,
        times.ratio()
    );
    times
}

fn lists() {
    println!("list call, microseconds; 'refused' ends when sizes and map are tested");
    println!(
        "  {:>4} {:>7} {:<8} {:>9} {:>9} {:>6}",
        "G", "events", "mix", "proved", "Rust", "ratio"
    );
    for guest_frames in [16, 256] {
        list_row(guest_frames, "refused", 0);
        list_row(guest_frames, "none", 0);
    }
    for mix in ["stores", "flushes", "mixed"] {
        let each = [16, 256].map(|guest_frames| {
            let [few, many] = [256, 4096].map(|count| list_row(guest_frames, mix, count));
            let more = |few: f64, many: f64| (many - few) * 1e3 / (4096.0 - 256.0);
            [more(few.proved, many.proved), more(few.rust, many.rust)]
        });
        println!(
            "  each event more, nanoseconds: proved {:.1} at G = 16, {:.1} at G = 256; Rust {:.1}, {:.1}",
            each[0][0], each[1][0], each[0][1], each[1][1]
        );
    }
}

// ---- the event call

/// A machine whose shares are full: below each root one path, and `leaves` present entries in each table of level 1.
fn full_machine(sizes: &Sizes, map: &[u64], leaves: u64) -> Machine {
    let cr3s = vec![0; sizes.processors as usize];
    let words = vec![0; 512 * map.len()];
    let mut machine = Machine::new(Map::new(map), words, sizes.share, &cr3s);
    for processor in &mut machine.processors {
        let first = processor.root.number;
        let leaf = |number: u64| {
            let mut table = Table::new(number, Guest(0));
            table.links = (0..leaves)
                .map(|at| (at, page((at * 31 + number) % sizes.guest_frames)))
                .collect();
            table
        };
        let leaves: BTreeMap<u64, Link> = (3..sizes.share)
            .map(|at| (at - 3, to(leaf(first + at))))
            .collect();
        let mut middle = Table::new(first + 2, Guest(0));
        middle.links = leaves;
        let mut upper = Table::new(first + 1, Guest(0));
        upper.links.insert(0, to(middle));
        processor.root.links.insert(0, to(upper));
    }
    machine
}

fn to(table: Table) -> Link {
    Link {
        rights: ALL_RIGHTS,
        below: Below::Table(table),
    }
}

fn page(frame: u64) -> Link {
    Link {
        rights: ALL_RIGHTS,
        below: Below::Page(Guest(frame)),
    }
}

fn event_times(sizes: Sizes, leaves: u64) -> (Times, f64) {
    let map: Vec<u64> = (0..sizes.guest_frames)
        .map(|frame| 5000 - 7 * frame)
        .collect();
    let machine = full_machine(&sizes, &map, leaves);
    let shadow = lay_out(&machine, sizes.base);
    let access = Event::new(sizes.processors - 1, ACCESS, 8, 0);
    let library_sizes = flamecurl::Sizes {
        frames: sizes.guest_frames,
        processors: sizes.processors,
        share: sizes.share,
        base: sizes.base,
    };
    let library_event = flamecurl::Event {
        processor: access.processor,
        kind: access.kind,
        a: access.a,
        b: access.b,
    };
    let times = Times::of(
        60,
        || (machine.words.clone(), shadow.clone()),
        |(words, shadow)| {
            let Shadow {
                pool,
                records,
                slots,
            } = shadow;
            let mut answer = [0; 3];
            proved::event(
                &map,
                words,
                pool,
                records,
                slots,
                &mut answer,
                library_sizes,
                library_event,
            );
            Some(answer)
        },
        |(words, shadow)| {
            let flat = Flat {
                sizes,
                map: &map,
                pool: &shadow.pool,
                records: &shadow.records,
                slots: &shadow.slots,
            };
            let reply = flat.served_access(words, &access);
            reply.map(|reply| [reply.refusal, reply.kind, reply.value])
        },
    );
    let passes = (0..60).map(|_| timed(|| pass(black_box(&shadow.pool))).0);
    (times, passes.fold(f64::MAX, f64::min))
}

/// One pass over the pool that looks at every word by itself.
fn pass(pool: &[u64]) -> u64 {
    let mut seen = 0;
    for &word in pool {
        seen = black_box(seen ^ word);
    }
    seen
}

fn events() {
    println!("event call (an access that the shadow serves), microseconds; 'pass' reads every word of the pool once");
    println!(
        "  {:>4} {:>2} {:>3} {:>7} {:>7} {:>9} {:>9} {:>6} {:>9}",
        "G", "P", "S", "words", "leaves", "proved", "Rust", "ratio", "pass"
    );
    for (processors, share) in [(1, 4), (4, 4), (1, 16), (4, 16)] {
        for (guest_frames, leaves) in [(16, 1), (16, 512), (256, 1), (256, 512)] {
            let sizes = Sizes {
                guest_frames,
                processors,
                share,
                base: 1 << 20,
            };
            let (times, pass) = event_times(sizes, leaves);
            let tables = processors * share;
            println!(
                "  {guest_frames:>4} {processors:>2} {share:>3} {:>7} {:>7} {:>9.1} {:>9.1} {:>6.2} {pass:>9.1}",
                512 * tables,
                leaves * (share - 3) * processors,
                times.proved,
                times.rust,
                times.ratio()
            );
        }
    }
}

// ---- text

fn texts() {
    println!("text, microseconds");
    println!(
        "  {:<34} {:>7} {:>9} {:>9} {:>6}",
        "call", "bytes", "proved", "Rust", "ratio"
    );
    let small = b"6 100 101 102 103 104 105\n1 0\n4 0 4103 512 8199 1024 12295 1536 16391\n1 0 1 1536 20487\n1 0 8 0\n";
    let largest = puzzle(&mut Prng::new(5), &STYLES[5]);
    let mut full = plain(&tokens(&every_word(&largest)));
    full.resize(65536, b' ');
    let samples = [
        ("the scope's puzzle", small.to_vec()),
        ("16 frames, 256 events", plain(&tokens(&largest))),
        ("all words, 65,536 bytes", full),
    ];
    for (name, text) in samples {
        show(&format!("read: {name}"), text.len(), read_times(&text));
        show(
            &format!("answers: {name}"),
            text.len(),
            answers_times(&text),
        );
    }
}

fn show(name: &str, bytes: usize, times: Times) {
    println!(
        "  {name:<34} {bytes:>7} {:>9.1} {:>9.1} {:>6.2}",
        times.proved,
        times.rust,
        times.ratio()
    );
}

/// All 512×G words are given, the new ones with short values.
fn every_word(of: &Puzzle) -> Puzzle {
    let mut words: BTreeMap<u64, u64> = (0..512 * of.guest_frames()).map(|w| (w, 1)).collect();
    words.extend(of.words.iter().take(100).copied());
    Puzzle {
        words: words.into_iter().collect(),
        events: of.events[..50].to_vec(),
        questions: of.questions[..1].to_vec(),
        ..of.clone()
    }
}

fn read_times(text: &[u8]) -> Times {
    let fresh = || [16, 4, 8192, 1024, 48].map(|length: usize| vec![0; length]);
    Times::of(
        60,
        fresh,
        |[map, cr3s, words, events, questions]| {
            let mut answer = [0; 7];
            proved::read(text, map, cr3s, words, events, questions, &mut answer);
            (answer[0], words[0])
        },
        |[map, cr3s, words, events, questions]| match puzzle::read(text) {
            Ok(puzzle) => {
                map[..puzzle.map.len()].copy_from_slice(&puzzle.map);
                cr3s[..puzzle.cr3s.len()].copy_from_slice(&puzzle.cr3s);
                let start = puzzle.start_words();
                words[..start.len()].copy_from_slice(&start);
                for (to, e) in events.chunks_exact_mut(4).zip(&puzzle.events) {
                    to.copy_from_slice(&[e.processor, e.kind, e.a, e.b]);
                }
                for (to, q) in questions.chunks_exact_mut(3).zip(&puzzle.questions) {
                    to.copy_from_slice(&[q.processor, q.address, q.request]);
                }
                (0, words[0])
            }
            Err(refused) => (refused.number, words[0]),
        },
    )
}

fn answers_times(text: &[u8]) -> Times {
    Times::of(
        30,
        || vec![0u8; flamecurl::TEXT_OUTPUT],
        |output| {
            let mut answer = [0; 4];
            proved::answers(text, output, &mut answer);
            output[..answer[1] as usize].to_vec()
        },
        |_| report::answers(text).into_bytes(),
    )
}
