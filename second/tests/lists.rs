//! The two ways to find held walks against each other, and the list call.

use second::gen::{puzzle, Prng, Style, STYLES};
use second::lists::*;
use second::puzzle::Puzzle;
use second::rules::*;

fn history<'a>(puzzle: &'a Puzzle, words: &'a [u64], processor: u64) -> History<'a> {
    History {
        guest_frames: puzzle.guest_frames(),
        words,
        cr3: Guest(puzzle.cr3s[processor as usize]),
        events: &puzzle.events,
        processor,
    }
}

#[test]
fn timings_and_sets_agree() {
    let mut rng = Prng::new(1);
    let mut longest = 0;
    for number in 0..4000 {
        let most = if number % 10 == 0 { 12 } else { 7 };
        let style = Style {
            events: (0, most),
            weights: [70, 12, 8, 5, 5],
            ..STYLES[0].clone()
        };
        let puzzle = puzzle(&mut rng, &style);
        let words = puzzle.start_words();
        for question in &puzzle.questions {
            let history = history(&puzzle, &words, question.processor);
            let page = page_of(question.address);
            let held = by_timings(&history, page);
            assert_eq!(held, by_sets(&history, page), "{puzzle:?} {question:?}");
            longest = longest.max(held.len());
        }
    }
    assert!(longest > 12, "{longest}");
}

/// Buffers for a list call, with marks to see what stays.
struct Call {
    sizes: ListSizes,
    map: Vec<u64>,
    words: Vec<u64>,
    cr3s: Vec<u64>,
    events: Vec<u64>,
    question: Question,
    work: Vec<u8>,
    outcomes: Vec<u64>,
}

impl Call {
    fn new(puzzle: &Puzzle, question: Question) -> Call {
        let guest_frames = puzzle.guest_frames();
        Call {
            sizes: ListSizes {
                guest_frames,
                processors: puzzle.cr3s.len() as u64,
                events: puzzle.events.len() as u64,
            },
            map: puzzle.map.clone(),
            words: puzzle.start_words(),
            cr3s: puzzle.cr3s.clone(),
            events: puzzle
                .events
                .iter()
                .flat_map(|e| [e.processor, e.kind, e.a, e.b])
                .collect(),
            question,
            work: vec![7; 40 * guest_frames as usize + 9],
            outcomes: vec![77; 2 * (guest_frames as usize + 3) + 5],
        }
    }

    fn list(&mut self) -> Listed {
        list(
            self.sizes,
            &self.map,
            &mut self.words,
            &self.cr3s,
            &self.events,
            self.question,
            &mut self.work,
            &mut self.outcomes,
        )
    }

    /// The call is refused with this number and nothing is changed.
    fn refused(mut self, refusal: u64) {
        let before = (self.words.clone(), self.work.clone(), self.outcomes.clone());
        assert_eq!(self.list(), Listed { refusal, count: 0 });
        assert!(before == (self.words, self.work, self.outcomes));
    }
}

#[test]
fn the_list_call_fills_its_buffers() {
    let mut rng = Prng::new(2);
    for _ in 0..300 {
        let style = rng.pick(&STYLES[..5]);
        let puzzle = puzzle(&mut rng, &style);
        for &question in &puzzle.questions {
            let mut call = Call::new(&puzzle, question);
            let start = call.words.clone();
            let listed = call.list();
            check_buffers(&puzzle, question, &start, &call, listed);
        }
    }
}

fn check_buffers(puzzle: &Puzzle, question: Question, start: &[u64], call: &Call, listed: Listed) {
    let mut end = start.to_vec();
    do_stores(&mut end, &puzzle.events);
    assert!(call.words == end);
    let held = by_sets(
        &history(puzzle, start, question.processor),
        page_of(question.address),
    );
    let guest_frames = puzzle.guest_frames();
    for (place, &byte) in call.work.iter().enumerate() {
        let place = place as u64;
        let walk = Walk {
            level: (place / 8 / guest_frames) as u32,
            frame: Guest(place / 8 % guest_frames),
            rights: (place % 8) as u8,
        };
        let expected = if place >= 40 * guest_frames {
            7
        } else {
            u8::from(held.contains(&walk))
        };
        assert_eq!(byte, expected);
    }
    let count = listed.count as usize;
    let pairs: Vec<&[u64]> = call.outcomes[..2 * count].chunks(2).collect();
    assert!(count > 0 && pairs.windows(2).all(|two| two[0] < two[1]));
    assert!(call.outcomes[2 * count..]
        .iter()
        .all(|&number| number == 77));
    let expected = outcomes(&held, &end, &question);
    let expected: Vec<[u64; 2]> = expected
        .into_iter()
        .map(|outcome| match outcome {
            Outcome::Address(frame) => [0, frame.0],
            Outcome::Fault(code) => [1, code],
        })
        .collect();
    assert_eq!(pairs, expected);
}

fn small() -> (Puzzle, Question) {
    let style = Style {
        guest_frames: (3, 3),
        processors: (2, 2),
        events: (3, 3),
        ..STYLES[0].clone()
    };
    let puzzle = puzzle(&mut Prng::new(3), &style);
    (puzzle, Question::new(0, 8, 0))
}

/// A call on a small puzzle after this change to it.
fn changed(change: impl FnOnce(&mut Call)) -> Call {
    let (puzzle, question) = small();
    let mut call = Call::new(&puzzle, question);
    change(&mut call);
    call
}

#[test]
fn lengths_and_sizes_are_refused_with_1() {
    changed(|c| c.sizes.guest_frames = 0).refused(1);
    changed(|c| c.sizes.guest_frames = u64::MAX).refused(1);
    changed(|c| c.sizes.guest_frames = 257).refused(1);
    changed(|c| c.sizes.processors = 0).refused(1);
    changed(|c| c.sizes.processors = 5).refused(1);
    changed(|c| c.sizes.events = 4097).refused(1);
    changed(|c| c.sizes.events = 2).refused(1);
    changed(|c| c.sizes.events = 1 << 62).refused(1);
    changed(|c| c.map.push(5000)).refused(1);
    changed(|c| c.words.truncate(1535)).refused(1);
    changed(|c| c.cr3s.push(0)).refused(1);
    changed(|c| c.events.push(0)).refused(1);
    changed(|c| c.work.truncate(119)).refused(1);
    changed(|c| c.outcomes.truncate(11)).refused(1);
    let mut least = changed(|c| {
        c.work.truncate(120);
        c.outcomes.truncate(12);
    });
    assert_eq!(least.list().refusal, 0);
    let too_many: Vec<u64> = [0, 2, 0, 0].repeat(4097);
    changed(|c| (c.events, c.sizes.events) = (too_many, 4097)).refused(1);
}

#[test]
fn the_list_calls_own_order() {
    let bad_event = |c: &mut Call, at: usize, event: [u64; 4]| {
        c.events[4 * at..4 * at + 4].copy_from_slice(&event)
    };
    changed(|c| c.map[2] = c.map[0]).refused(2);
    changed(|c| c.map[1] = 1 << 40).refused(2);
    assert_eq!(changed(|c| c.map[1] = (1 << 40) - 1).list().refusal, 0);
    changed(|c| (c.map[1], c.cr3s[1]) = (1 << 40, 3)).refused(2);
    changed(|c| {
        c.cr3s[1] = 3;
        bad_event(c, 0, [2, 1, 0, 0]);
    })
    .refused(7);
    changed(|c| {
        bad_event(c, 1, [0, 8, 0, 0]);
        bad_event(c, 2, [2, 1, 0, 0]);
        c.question.processor = 2;
    })
    .refused(11);
    changed(|c| bad_event(c, 0, [2, 9, 1 << 47, 9])).refused(4);
    changed(|c| bad_event(c, 0, [0, 9, 1 << 47, 9])).refused(11);
    changed(|c| bad_event(c, 0, [0, 5, 1 << 47, 9])).refused(5);
    changed(|c| bad_event(c, 0, [0, 4, 1 << 47, 9])).refused(5);
    changed(|c| bad_event(c, 0, [0, 4, 1, 6])).refused(6);
    changed(|c| bad_event(c, 0, [0, 2, 1 << 47, 1])).refused(5);
    changed(|c| bad_event(c, 0, [0, 3, 3, 1])).refused(7);
    changed(|c| bad_event(c, 0, [0, 1, 1536, 1])).refused(8);
    changed(|c| bad_event(c, 0, [0, 6, 8, 1])).refused(9);
    changed(|c| bad_event(c, 0, [0, 7, 7, 1])).refused(11);
    changed(|c| c.question = Question::new(2, 1 << 47, 6)).refused(4);
    changed(|c| c.question = Question::new(1, 1 << 47, 6)).refused(5);
    changed(|c| c.question = Question::new(1, 1, 6)).refused(6);
}

#[test]
fn the_largest_list_call() {
    let mut rng = Prng::new(4);
    let style = Style {
        guest_frames: (256, 256),
        processors: (4, 4),
        events: (4096, 4096),
        questions: (2, 2),
        weights: [95, 1, 1, 1, 2],
        hot_addresses: (1, 1),
        ..STYLES[0].clone()
    };
    let puzzle = puzzle(&mut rng, &style);
    for &question in &puzzle.questions {
        let mut call = Call::new(&puzzle, question);
        let start = call.words.clone();
        let listed = call.list();
        assert_eq!(listed.refusal, 0);
        check_buffers(&puzzle, question, &start, &call, listed);
    }
}
