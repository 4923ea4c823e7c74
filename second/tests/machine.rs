//! The shadow machine: state rules, refusals, single steps on hand-made lawful
//! states, and what every run from setup keeps (demand 3).

use second::flat::{self, Reply, Shadow, Sizes};
use second::gen::{puzzle, Prng, Style, STYLES};
use second::lists::{self, Outcome};
use second::machine::*;
use second::puzzle::{Puzzle, POOL_BASE};
use second::rules::*;

fn machine_of(puzzle: &Puzzle, share: u64) -> Machine {
    Machine::new(
        Map::new(&puzzle.map),
        puzzle.start_words(),
        share,
        &puzzle.cr3s,
    )
}

fn sizes_of(puzzle: &Puzzle, share: u64) -> Sizes {
    let processors = puzzle.cr3s.len() as u64;
    Sizes {
        guest_frames: puzzle.guest_frames(),
        processors,
        share,
        base: POOL_BASE,
    }
}

fn random_puzzle(rng: &mut Prng) -> Puzzle {
    let style = rng.pick(&STYLES[..5]);
    puzzle(rng, &style)
}

#[test]
fn random_runs_keep_the_state_rules() {
    let mut rng = Prng::new(11);
    for _ in 0..400 {
        let puzzle = random_puzzle(&mut rng);
        let share = rng.between((4, 7));
        let sizes = sizes_of(&puzzle, share);
        let mut machine = machine_of(&puzzle, share);
        for event in &puzzle.events {
            machine.happen(event);
            let shadow = flat::lay_out(&machine, sizes.base);
            let read = flat::read_flat(&sizes, &puzzle.map, &machine.words, &shadow);
            assert!(read.as_ref() == Some(&machine), "{puzzle:?}");
        }
    }
}

#[test]
fn event_calls_on_flat_buffers_agree_with_the_tree() {
    let mut rng = Prng::new(12);
    for _ in 0..150 {
        let puzzle = random_puzzle(&mut rng);
        let sizes = sizes_of(&puzzle, 4);
        let mut machine = machine_of(&puzzle, 4);
        let mut words = puzzle.start_words();
        let mut shadow = flat::zeros(sizes.processors, 4);
        shadow.pool.fill(u64::MAX);
        assert_eq!(
            flat::setup(&sizes, &puzzle.map, &puzzle.cr3s, &mut shadow).refusal,
            0
        );
        for event in &puzzle.events {
            let (kind, value) = machine.happen(event).numbers();
            let reply = flat::event(&sizes, &puzzle.map, &mut words, &mut shadow, event);
            assert_eq!(
                reply,
                Reply {
                    refusal: 0,
                    kind,
                    value
                }
            );
            assert!(words == machine.words && shadow == flat::lay_out(&machine, sizes.base));
        }
    }
}

#[test]
fn the_put_right_after_an_again_answers_an_address() {
    let mut rng = Prng::new(13);
    let mut agains = 0;
    for _ in 0..1500 {
        let puzzle = random_puzzle(&mut rng);
        let mut machine = machine_of(&puzzle, 4);
        for event in &puzzle.events {
            if machine.happen(event) == Answer::Again {
                agains += 1;
                let before = machine.clone();
                assert!(matches!(machine.happen(event), Answer::Address(_)));
                assert!(machine == before, "a served access changes nothing");
            }
        }
    }
    assert!(agains > 3000, "{agains}");
}

/// The answer stands in the list for these events before it.
fn permitted(puzzle: &Puzzle, before: &[Event], event: &Event, answer: Answer) -> bool {
    let question = Question::new(event.processor, event.a, event.b);
    let (_, outcomes) = lists::answers(&puzzle.start_words(), &puzzle.cr3s, before, &question);
    let map = Map::new(&puzzle.map);
    outcomes.into_iter().any(|outcome| match outcome {
        Outcome::Address(frame) => {
            answer == Answer::Address(host_address(map.host(frame), event.a))
        }
        Outcome::Fault(code) => answer == Answer::Fault(code),
    })
}

/// Something that may happen between the two puts of p: stores, what other
/// processors do, and p's own slots.
fn between_puts(rng: &mut Prng, events: &[Event], p: u64) -> Vec<Event> {
    let allowed = |e: &Event| e.processor != p || matches!(e.kind, STORE | BEGIN | EXTEND | DROP);
    let allowed: Vec<Event> = events.iter().copied().filter(allowed).collect();
    let count = if allowed.is_empty() { 0 } else { rng.below(6) };
    (0..count).map(|_| rng.pick(&allowed)).collect()
}

#[test]
fn an_access_put_at_most_twice_ends_in_its_list() {
    let mut rng = Prng::new(14);
    let mut puts = [0, 0];
    for _ in 0..1500 {
        let puzzle = random_puzzle(&mut rng);
        let mut machine = machine_of(&puzzle, 4);
        let mut past = Vec::new();
        for event in &puzzle.events {
            let mut answer = machine.happen(event);
            if event.kind == ACCESS {
                puts[0] += 1;
            }
            if answer == Answer::Again {
                puts[1] += 1;
                past.push(*event);
                for other in between_puts(&mut rng, &puzzle.events, event.processor) {
                    machine.happen(&other);
                    past.push(other);
                }
                answer = machine.happen(event);
                assert!(matches!(answer, Answer::Address(_)));
            }
            if event.kind == ACCESS {
                assert!(
                    permitted(&puzzle, &past, event, answer),
                    "{puzzle:?} {past:?} {event:?} {answer:?}"
                );
            }
            past.push(*event);
        }
    }
    assert!(puts[0] > 10_000 && puts[1] > 3000, "{puts:?}");
}

#[test]
fn machine_words_differ_from_the_lists_in_bits_5_and_6_only() {
    let mut rng = Prng::new(15);
    for _ in 0..300 {
        let puzzle = random_puzzle(&mut rng);
        let mut machine = machine_of(&puzzle, 4);
        let mut words = puzzle.start_words();
        for event in &puzzle.events {
            machine.happen(event);
        }
        lists::do_stores(&mut words, &puzzle.events);
        let differences = machine
            .words
            .iter()
            .zip(&words)
            .map(|(mine, list)| mine ^ list);
        assert!(differences.fold(0, |all, one| all | one) & !(Entry::ACCESSED | Entry::DIRTY) == 0);
    }
}

#[test]
fn two_far_addresses_throw_each_other_out() {
    let sizes = example_sizes(1);
    let (map, mut words, mut shadow) = example(&sizes);
    words[1] = words[0];
    let mut put = |address| {
        flat::event(
            &sizes,
            &map,
            &mut words,
            &mut shadow,
            &Event::new(0, ACCESS, address, 0),
        )
        .kind
    };
    for _ in 0..5 {
        assert_eq!((put(8), put(1 << 39)), (3, 3));
    }
    assert_eq!(put(1 << 39), 1);
}

fn example_sizes(processors: u64) -> Sizes {
    Sizes {
        guest_frames: 6,
        processors,
        share: 4,
        base: POOL_BASE,
    }
}

/// The start of the known puzzles, set up.
fn example(sizes: &Sizes) -> (Vec<u64>, Vec<u64>, Shadow) {
    let map: Vec<u64> = (100..106).collect();
    let mut words = vec![0; 512 * 6];
    for (word, value) in [(0, 4103), (512, 8199), (1024, 12295), (1536, 16391)] {
        words[word] = value;
    }
    let mut shadow = flat::zeros(sizes.processors, sizes.share);
    let cr3s = vec![0; sizes.processors as usize];
    assert_eq!(flat::setup(sizes, &map, &cr3s, &mut shadow).refusal, 0);
    (map, words, shadow)
}

/// The example after a read of address 8 by processor 0.
fn filled(sizes: &Sizes) -> (Vec<u64>, Vec<u64>, Shadow) {
    let (map, mut words, mut shadow) = example(sizes);
    let read = Event::new(0, ACCESS, 8, 0);
    assert_eq!(
        flat::event(sizes, &map, &mut words, &mut shadow, &read).kind,
        3
    );
    (map, words, shadow)
}

/// The refusal that an event gets after this change to the filled example.
fn after(change: impl FnOnce(&mut Shadow)) -> u64 {
    let sizes = example_sizes(2);
    let (map, mut words, mut shadow) = filled(&sizes);
    change(&mut shadow);
    let before = (words.clone(), shadow.clone());
    let reply = flat::event(
        &sizes,
        &map,
        &mut words,
        &mut shadow,
        &Event::new(0, STORE, 7, 0),
    );
    assert_eq!((reply.kind, reply.value), (0, 0));
    assert!(before == (words, shadow));
    reply.refusal
}

type Change = (&'static str, fn(&mut Shadow));

#[test]
fn broken_state_rules_are_refused_with_3() {
    let base = POOL_BASE << 12;
    assert_eq!(after(|_| {}), 0);
    let changes: [Change; 33] = [
        ("root of level 3", |s| s.records[0] = 3),
        ("root free", |s| s.records[8] = 0),
        ("level 5", |s| s.records[10] = 5),
        ("a second level 4", |s| s.records[10] = 4),
        ("a live table without a name", |s| s.records[10] = 1),
        ("free table with a frame", |s| s.records[11] = 1),
        ("free table with a word", |s| s.pool[512 * 5 + 3] = 1),
        ("shadowed frame 6", |s| s.records[3] = 6),
        ("root shadows 6", |s| s.records[1] = 6),
        ("level off by one", |s| s.records[2] = 2),
        ("named table free", |s| s.records[6] = 0),
        ("absent but not 0", |s| s.pool[5] = 2),
        ("A is 0", |s| s.pool[0] &= !Entry::ACCESSED),
        ("D above level 1", |s| s.pool[0] |= Entry::DIRTY),
        ("unnamed bit 3", |s| s.pool[0] |= 1 << 3),
        ("unnamed bit 7", |s| s.pool[1536] |= 1 << 7),
        ("unnamed bit 52", |s| s.pool[1536] |= 1 << 52),
        ("unnamed bit 62", |s| s.pool[1536] |= 1 << 62),
        ("D without RW", |s| s.pool[1536] |= Entry::DIRTY),
        ("RW without D", |s| s.pool[1536] |= Entry::RW),
        ("frame outside the map", |s| s.pool[1536] += 2 << 12),
        ("named twice", |s| s.pool[1] = s.pool[0]),
        ("named in another share", |s| {
            s.pool.swap(0, 512 * 4);
        }),
        ("an entry that names a root", |s| {
            s.pool[9] = (POOL_BASE << 12) + 33
        }),
        ("frame below the pool", |s| s.pool[9] = (100 << 12) + 33),
        ("mark 6", |s| s.slots[0] = 6),
        ("empty with a page", |s| s.slots[1] = 1),
        ("empty with a place", |s| s.slots[2] = 1),
        ("page 2^36", |s| {
            s.slots[..3].copy_from_slice(&[1, 1 << 36, 0])
        }),
        ("complete with frame 6", |s| {
            s.slots[..3].copy_from_slice(&[1, 0, 48])
        }),
        ("partial with lesser rights", |s| {
            s.slots[..3].copy_from_slice(&[5, 0, 6])
        }),
        ("partial on another table", |s| {
            s.slots[..3].copy_from_slice(&[4, 0, 2 * 8 + 7])
        }),
        ("partial on no table", |s| {
            s.slots[..3].copy_from_slice(&[4, 1 << 27, 8 + 7])
        }),
    ];
    for (name, change) in changes {
        assert_eq!(after(change), 3, "{name}");
    }
    let lawful: [Change; 6] = [
        ("complete, last frame, no rights", |s| {
            s.slots[..3].copy_from_slice(&[1, (1 << 36) - 1, 40])
        }),
        ("partial on the root", |s| {
            s.slots[..3].copy_from_slice(&[5, 1 << 35, 7])
        }),
        ("partial at level 1", |s| {
            s.slots[..3].copy_from_slice(&[2, 511, 3 * 8 + 7])
        }),
        ("partial on the other root", |s| {
            s.slots[24..27].copy_from_slice(&[5, 0, 4 * 8 + 7])
        }),
        ("RW with D", |s| s.pool[1536] |= Entry::RW | Entry::DIRTY),
        ("other rights above", |s| {
            s.pool[0] ^= Entry::NX | Entry::RW | Entry::US
        }),
    ];
    for (name, change) in lawful {
        assert_eq!(after(change), 0, "{name}");
    }
    let (_, _, shadow) = filled(&example_sizes(1));
    assert_eq!(shadow.pool[0], base + 4096 + 39);
}

/// The reply to an event after this change to the filled example's buffers.
fn reply_after(
    change: impl FnOnce(&mut Sizes, &mut Vec<u64>, &mut Vec<u64>, &mut Shadow),
    event: Event,
) -> u64 {
    let mut sizes = example_sizes(2);
    let (mut map, mut words, mut shadow) = filled(&sizes);
    change(&mut sizes, &mut map, &mut words, &mut shadow);
    let before = (words.clone(), shadow.clone());
    let reply = flat::event(&sizes, &map, &mut words, &mut shadow, &event);
    if reply.refusal != 0 {
        assert_eq!((reply.kind, reply.value), (0, 0));
        assert!(before == (words, shadow));
    }
    reply.refusal
}

#[test]
fn event_refusals_come_in_their_order() {
    let bad = Event::new(2, STORE, 0, 0);
    let good = Event::new(1, DROP, 0, 0);
    assert_eq!(reply_after(|_, _, _, _| {}, good), 0);
    assert_eq!(reply_after(|s, _, _, _| s.share = 3, bad), 1);
    assert_eq!(reply_after(|s, _, _, _| s.share = u64::MAX, bad), 1);
    assert_eq!(reply_after(|s, _, _, _| s.share = 5, bad), 1);
    assert_eq!(reply_after(|s, _, _, _| s.processors = 1, bad), 1);
    assert_eq!(reply_after(|s, _, _, _| s.guest_frames = 7, bad), 1);
    assert_eq!(reply_after(|_, m, _, _| m.truncate(5), bad), 1);
    assert_eq!(reply_after(|_, _, w, _| w.push(0), bad), 1);
    assert_eq!(reply_after(|_, _, _, s| s.pool.push(0), bad), 1);
    assert_eq!(reply_after(|_, _, _, s| s.records.truncate(15), bad), 1);
    assert_eq!(reply_after(|_, _, _, s| s.slots.truncate(47), bad), 1);
    assert_eq!(
        reply_after(|_, m, _, s| (m[1], s.records[0]) = (100, 9), bad),
        2
    );
    assert_eq!(reply_after(|_, m, _, _| m[5] = 1 << 40, bad), 2);
    assert_eq!(reply_after(|_, m, _, _| m[5] = POOL_BASE + 7, bad), 2);
    assert_eq!(reply_after(|_, m, _, _| m[5] = POOL_BASE + 8, good), 0);
    assert_eq!(reply_after(|s, _, _, _| s.base = u64::MAX, bad), 2);
    assert_eq!(reply_after(|s, _, _, _| s.base = (1 << 40) - 7, bad), 2);
    assert_eq!(reply_after(|s, _, _, _| s.base = (1 << 40) - 8, bad), 3);
    assert_eq!(reply_after(|_, _, _, s| s.records[0] = 9, bad), 3);
    assert_eq!(reply_after(|_, _, _, _| {}, bad), 4);
    assert_eq!(
        reply_after(|_, _, _, _| {}, Event::new(1, 8, 1 << 47, 9)),
        11
    );
}

#[test]
fn setup_refusals() {
    let try_setup = |sizes: Sizes, map: &[u64], cr3s: &[u64]| {
        let mut shadow = flat::zeros(1, 4);
        shadow.slots.fill(9);
        let before = shadow.clone();
        let reply = flat::setup(&sizes, map, cr3s, &mut shadow);
        assert!(reply.refusal == 0 || shadow == before);
        reply.refusal
    };
    let sizes = Sizes {
        guest_frames: 2,
        processors: 1,
        share: 4,
        base: 50,
    };
    assert_eq!(try_setup(sizes, &[49, 54], &[1]), 0);
    assert_eq!(try_setup(sizes, &[49, 53], &[2]), 2);
    assert_eq!(try_setup(sizes, &[49, 54], &[2]), 7);
    assert_eq!(try_setup(sizes, &[49], &[2]), 1);
    assert_eq!(try_setup(sizes, &[49, 49], &[0, 0]), 1);
    assert_eq!(
        try_setup(
            Sizes {
                base: (1 << 40) - 4,
                ..sizes
            },
            &[49, 54],
            &[1]
        ),
        0
    );
    assert_eq!(
        try_setup(
            Sizes {
                base: (1 << 40) - 3,
                ..sizes
            },
            &[49, 54],
            &[1]
        ),
        2
    );
    assert_eq!(try_setup(Sizes { share: 17, ..sizes }, &[49, 54], &[1]), 1);
}

/// The answers to these events on the filled example with these slots.
fn replies(slots: &[[u64; 3]], events: &[Event]) -> (Vec<(u64, u64)>, Shadow) {
    let sizes = example_sizes(1);
    let (map, mut words, mut shadow) = filled(&sizes);
    for (at, slot) in slots.iter().enumerate() {
        shadow.slots[3 * at..3 * at + 3].copy_from_slice(slot);
    }
    let mut replies = Vec::new();
    for event in events {
        let reply = flat::event(&sizes, &map, &mut words, &mut shadow, event);
        assert_eq!(reply.refusal, 0);
        replies.push((reply.kind, reply.value));
    }
    (replies, shadow)
}

#[test]
fn the_lowest_slot_that_serves_answers_before_the_shadow() {
    let read = Event::new(0, ACCESS, 9, 0);
    let write = Event::new(0, ACCESS, 9, 1);
    let slots = [
        [1, 1, 2 * 8 + 7],
        [1, 0, 5 * 8],
        [1, 0, 3 * 8 + 1],
        [1, 0, 2 * 8 + 7],
    ];
    let (answers, _) = replies(&slots, &[read, write, Event::new(0, DROP, 1, 0), read]);
    assert_eq!(
        answers,
        [
            (1, 105 * 4096 + 9),
            (1, 103 * 4096 + 9),
            (0, 0),
            (1, 103 * 4096 + 9)
        ]
    );
    let (answers, _) = replies(&slots[..2], &[write, read]);
    assert_eq!(answers, [(3, 0), (1, 104 * 4096 + 9)]);
}

#[test]
fn begin_extend_and_drop() {
    let begin = Event::new(0, BEGIN, 8, 2);
    let extend = Event::new(0, EXTEND, 2, 0);
    let events = [
        begin,
        extend,
        extend,
        extend,
        extend,
        extend,
        Event::new(0, EXTEND, 3, 0),
    ];
    let (answers, shadow) = replies(&[], &events);
    let kinds: Vec<u64> = answers.iter().map(|answer| answer.0).collect();
    assert_eq!(kinds, [0, 0, 0, 0, 0, 4, 4]);
    assert_eq!(
        shadow.slots[6..9],
        [1, 0, 4 * 8 + 6],
        "W is left out while D is clear"
    );
    let (_, shadow) = replies(&[], &events[..3]);
    assert_eq!(shadow.slots[6..9], [3, 0, 2 * 8 + 7]);
    let far = Event::new(0, BEGIN, 1 << 39, 2);
    let (answers, shadow) = replies(
        &[[1, 5, 8], [5, 0, 7]],
        &[far, extend, Event::new(0, INVLPG, 4096, 0)],
    );
    assert_eq!(answers, [(0, 0), (4, 0), (0, 0)]);
    assert_eq!(shadow.slots[..9], [1, 5, 8, 0, 0, 0, 0, 0, 0]);
}

#[test]
fn a_self_mapped_word_keeps_its_a_when_d_comes() {
    let map = [9];
    let sizes = Sizes {
        guest_frames: 1,
        processors: 1,
        share: 4,
        base: 100,
    };
    let mut words = vec![0; 512];
    words[0] = 7;
    let mut shadow = flat::zeros(1, 4);
    flat::setup(&sizes, &map, &[0], &mut shadow);
    let write = Event::new(0, ACCESS, 0, 1);
    assert_eq!(
        flat::event(&sizes, &map, &mut words, &mut shadow, &write).kind,
        3
    );
    assert_eq!(words[0], 103);
    assert_eq!(
        flat::event(&sizes, &map, &mut words, &mut shadow, &write).value,
        9 * 4096
    );
}

#[test]
fn faults_leave_a_and_nothing_else() {
    let sizes = example_sizes(1);
    let (map, mut words, mut shadow) = example(&sizes);
    words[1536] = 16389;
    let before = shadow.clone();
    let reply = flat::event(
        &sizes,
        &map,
        &mut words,
        &mut shadow,
        &Event::new(0, ACCESS, 8, 4),
    );
    assert_eq!((reply.kind, reply.value), (2, 7));
    assert_eq!(
        [words[0], words[512], words[1024], words[1536]],
        [4135, 8231, 12327, 16421]
    );
    words[1536] = 6;
    words[1024] &= !Entry::ACCESSED;
    let reply = flat::event(
        &sizes,
        &map,
        &mut words,
        &mut shadow,
        &Event::new(0, ACCESS, 8, 5),
    );
    assert_eq!((reply.kind, reply.value), (2, 20));
    assert_eq!([words[1024], words[1536]], [12327, 6]);
    assert!(shadow == before);
}

#[test]
fn a_differing_entry_frees_its_subtree() {
    let sizes = example_sizes(1);
    let (map, mut words, mut shadow) = filled(&sizes);
    words[512] = 5 * 4096 + 7;
    words[5 * 512] = 3 * 4096 + 7;
    let mut put = |words: &mut Vec<u64>, a, b| {
        flat::event(
            &sizes,
            &map,
            words,
            &mut shadow,
            &Event::new(0, ACCESS, a, b),
        )
        .kind
    };
    assert_eq!(put(&mut words, 8, 0), 1);
    assert_eq!(put(&mut words, 8, 1), 3);
    assert_eq!(shadow.records, [4, 0, 3, 1, 2, 5, 1, 3]);
    assert_eq!(words[1536], 16391 | 96);
}

/// Random lawful states that no run from setup makes: slots that name any
/// frame, other words in memory, another share.
#[test]
fn from_any_lawful_state_the_rules_are_kept_and_again_is_followed_by_an_address() {
    let mut rng = Prng::new(16);
    for _ in 0..400 {
        let style = Style {
            processors: (1, 2),
            ..STYLES[2].clone()
        };
        let puzzle = puzzle(&mut rng, &style);
        let share = rng.between((4, 16));
        let sizes = sizes_of(&puzzle, share);
        let mut machine = machine_of(&puzzle, share);
        for event in &puzzle.events {
            if rng.percent(20) {
                disturb(&mut rng, &mut machine, page_of(event.a));
            }
            if machine.happen(event) == Answer::Again {
                assert!(matches!(machine.happen(event), Answer::Address(_)));
            }
            let shadow = flat::lay_out(&machine, sizes.base);
            assert!(
                flat::read_flat(&sizes, &puzzle.map, &machine.words, &shadow).as_ref()
                    == Some(&machine)
            );
        }
    }
}

fn disturb(rng: &mut Prng, machine: &mut Machine, page: u64) {
    let frames = machine.map.guest_frames();
    let p = rng.below(machine.processors.len() as u64) as usize;
    let frame = Guest(rng.below(frames));
    machine.processors[p].slots[rng.below(8) as usize] = Slot::Complete {
        page,
        frame,
        rights: rng.below(8) as u8,
    };
    let word = rng.below(machine.words.len() as u64) as usize;
    machine.words[word] = rng.draw();
}
