//! The calls written for speed against the plain ones.

use second::flat::{self, Sizes};
use second::gen::{puzzle, Prng, STYLES};
use second::lists::{self, ListSizes};
use second::machine::Machine;
use second::puzzle::POOL_BASE;
use second::quick::{self, Flat};
use second::rules::*;

#[test]
fn quick_lists_agree() {
    let mut rng = Prng::new(21);
    for _ in 0..3000 {
        let style = rng.pick(&STYLES[..5]);
        let puzzle = puzzle(&mut rng, &style);
        let sizes = ListSizes {
            guest_frames: puzzle.guest_frames(),
            processors: puzzle.cr3s.len() as u64,
            events: puzzle.events.len() as u64,
        };
        let four = |e: &Event| [e.processor, e.kind, e.a, e.b];
        let mut events: Vec<u64> = puzzle.events.iter().flat_map(four).collect();
        if rng.percent(20) && !events.is_empty() {
            let at = rng.below(events.len() as u64) as usize;
            events[at] = rng.pick(&[0, 8, 1 << 47, u64::MAX]);
        }
        for &question in &puzzle.questions {
            let call = |quickly: bool| {
                let (mut words, mut work) = (puzzle.start_words(), vec![7; 16 * 40 + 9]);
                let mut outcomes = vec![7; 2 * 19 + 5];
                let list = if quickly { quick::list } else { lists::list };
                let listed = list(
                    sizes,
                    &puzzle.map,
                    &mut words,
                    &puzzle.cr3s,
                    &events,
                    question,
                    &mut work,
                    &mut outcomes,
                );
                (listed, words, work, outcomes)
            };
            assert!(call(true) == call(false), "{puzzle:?} {question:?}");
        }
    }
}

#[test]
fn quickly_served_accesses_agree() {
    let mut rng = Prng::new(22);
    let mut served = 0;
    for _ in 0..600 {
        let style = rng.pick(&STYLES[..5]);
        let puzzle = puzzle(&mut rng, &style);
        let sizes = Sizes {
            guest_frames: puzzle.guest_frames(),
            processors: puzzle.cr3s.len() as u64,
            share: 4,
            base: POOL_BASE,
        };
        let map = Map::new(&puzzle.map);
        let mut machine = Machine::new(map, puzzle.start_words(), 4, &puzzle.cr3s);
        for event in &puzzle.events {
            let mut shadow = flat::lay_out(&machine, sizes.base);
            let mut words = machine.words.clone();
            if rng.percent(30) {
                let at = rng.below(shadow.pool.len() as u64) as usize;
                shadow.pool[at] ^= 1 << rng.below(64);
            }
            if event.kind == ACCESS {
                let quickly = Flat {
                    sizes,
                    map: &puzzle.map,
                    pool: &shadow.pool,
                    records: &shadow.records,
                    slots: &shadow.slots,
                }
                .served_access(&words, event);
                let reply = flat::event(&sizes, &puzzle.map, &mut words, &mut shadow, event);
                let is_served = reply.refusal != 0 || reply.kind == 1;
                served += u64::from(is_served);
                assert_eq!(quickly, is_served.then_some(reply), "{puzzle:?} {event:?}");
            }
            machine.happen(event);
        }
    }
    assert!(served > 3000, "{served}");
}

/// A refused call: what is wrong, its sizes, its map and how many words it lends.
type Wrong = (&'static str, Sizes, Vec<u64>, usize);

#[test]
fn quickly_refused_sizes_and_maps_agree() {
    let sizes = Sizes {
        guest_frames: 3,
        processors: 1,
        share: 4,
        base: POOL_BASE,
    };
    let map = vec![100, 101, 102];
    let mut shadow = flat::zeros(1, 4);
    assert_eq!(flat::setup(&sizes, &map, &[0], &mut shadow).refusal, 0);
    let last = FRAME_LIMIT - 1;
    let wrong: Vec<Wrong> = vec![
        ("a repeated frame", sizes, vec![100, 101, 100], 1536),
        ("a frame of 2^40", sizes, vec![100, 101, last + 1], 1536),
        ("the pool's first", sizes, vec![100, 101, POOL_BASE], 1536),
        (
            "the pool's last",
            sizes,
            vec![100, 101, POOL_BASE + 3],
            1536,
        ),
        (
            "a pool past 2^40",
            Sizes {
                base: last - 2,
                ..sizes
            },
            map.clone(),
            1536,
        ),
        (
            "a pool past 2^64",
            Sizes {
                base: u64::MAX,
                ..sizes
            },
            map.clone(),
            1536,
        ),
        ("a word missing", sizes, map.clone(), 1535),
        ("a map frame missing", sizes, vec![100, 101], 1536),
        (
            "a share of 3",
            Sizes { share: 3, ..sizes },
            map.clone(),
            1536,
        ),
        (
            "257 frames",
            Sizes {
                guest_frames: 257,
                ..sizes
            },
            (0..257).collect(),
            512 * 257,
        ),
    ];
    let access = Event::new(0, ACCESS, 8, 0);
    for (label, sizes, map, length) in wrong {
        let mut words = vec![0; length];
        let quickly = Flat {
            sizes,
            map: &map,
            pool: &shadow.pool,
            records: &shadow.records,
            slots: &shadow.slots,
        }
        .served_access(&words, &access);
        let reply = flat::event(&sizes, &map, &mut words, &mut shadow, &access);
        assert!((1..=2).contains(&reply.refusal), "{label}: {reply:?}");
        assert_eq!(quickly, Some(reply), "{label}");
    }
}
