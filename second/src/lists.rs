//! Every permitted outcome of a question, found twice: `by_timings` tries all
//! moments t4 ≤ t3 ≤ t2 ≤ t1 as the rule states them, `by_sets` carries the set
//! of walks from moment to moment. `list` is the library's list call on top of
//! the sets, `list_by` the same call on top of either.

use crate::rules::*;
use std::collections::BTreeSet;

pub type Held = BTreeSet<Walk>;

/// A way to find the walks of a page that are held at the end of a history.
pub type Rule = fn(&History, u64) -> Held;

/// A start and the events after it, as one processor lives them.
pub struct History<'a> {
    pub guest_frames: u64,
    pub words: &'a [u64],
    pub cr3: Guest,
    pub events: &'a [Event],
    pub processor: u64,
}

/// Looking at any moment; event j (from 1) leads from moment j − 1 to moment j.
impl History<'_> {
    pub fn end(&self) -> usize {
        self.events.len()
    }

    fn word_at(&self, moment: usize, word: u64) -> Entry {
        let stored = self.events[..moment]
            .iter()
            .rev()
            .find(|e| e.kind == STORE && e.a == word);
        Entry(stored.map_or(self.words[word as usize], |store| store.b))
    }

    fn cr3_at(&self, moment: usize) -> Guest {
        let written = self.events[..moment]
            .iter()
            .rev()
            .find(|e| e.is(self.processor, CR3_WRITE));
        written.map_or(self.cr3, |write| Guest(write.a))
    }

    /// No INVLPG and no CR3 write of p after `from` and up to `to`.
    fn unbroken(&self, from: usize, to: usize) -> bool {
        let p = self.processor;
        !self.events[from..to]
            .iter()
            .any(|e| e.is(p, INVLPG) || e.is(p, CR3_WRITE))
    }

    /// After `moment` no CR3 write of p and no INVLPG of p on this page.
    fn kept(&self, moment: usize, page: u64) -> bool {
        let p = self.processor;
        !self.events[moment..]
            .iter()
            .any(|e| e.is(p, CR3_WRITE) || e.is(p, INVLPG) && page_of(e.a) == page)
    }

    /// The walk that reads its entries at these moments, if each extends it.
    fn walk_at(&self, page: u64, moments: &[usize]) -> Option<Walk> {
        let mut walk = Walk::start(self.cr3_at(moments[0]));
        for &moment in moments {
            let entry = self.word_at(moment, walk.next_word(page));
            match walk.step(entry, self.guest_frames) {
                Step::Extend(next) => walk = next,
                Step::Fault(_) => return None,
            }
        }
        Some(walk)
    }
}

/// The rule of document 01, moment by moment. For few events only.
pub fn by_timings(history: &History, page: u64) -> Held {
    let mut held = completed_by_timings(history, page);
    held.extend(partial_by_timings(history, page));
    held
}

fn completed_by_timings(history: &History, page: u64) -> Held {
    let end = history.end();
    let mut held = Held::new();
    for t4 in 0..=end {
        for t3 in t4..=end {
            for t2 in t3..=end {
                for t1 in t2..=end {
                    if history.unbroken(t4, t1) && history.kept(t1, page) {
                        held.extend(history.walk_at(page, &[t4, t3, t2, t1]));
                    }
                }
            }
        }
    }
    held
}

fn partial_by_timings(history: &History, page: u64) -> Held {
    let end = history.end();
    let mut held = Held::from([Walk::start(history.cr3_at(end))]);
    for t4 in (0..=end).filter(|&t4| history.unbroken(t4, end)) {
        held.extend(history.walk_at(page, &[t4]));
        for t3 in t4..=end {
            held.extend(history.walk_at(page, &[t4, t3]));
            for t2 in t3..=end {
                held.extend(history.walk_at(page, &[t4, t3, t2]));
            }
        }
    }
    held
}

/// The walks held after each event, grown from those held before it.
pub fn by_sets(history: &History, page: u64) -> Held {
    let mut now = Now {
        guest_frames: history.guest_frames,
        words: history.words.to_vec(),
        cr3: history.cr3,
        page,
        held: Held::new(),
    };
    now.begin();
    for event in history.events {
        now.happen(event, event.processor == history.processor);
    }
    now.held
}

struct Now {
    guest_frames: u64,
    words: Vec<u64>,
    cr3: Guest,
    page: u64,
    held: Held,
}

impl Now {
    fn happen(&mut self, event: &Event, own: bool) {
        match event.kind {
            STORE => self.store(event.a, event.b),
            INVLPG if own => {
                let other_page = page_of(event.a) != self.page;
                self.held.retain(|walk| walk.complete() && other_page);
                self.begin();
            }
            CR3_WRITE if own => {
                self.cr3 = Guest(event.a);
                self.held.clear();
                self.begin();
            }
            _ => {}
        }
    }

    fn begin(&mut self) {
        let start = Walk::start(self.cr3);
        self.held.insert(start);
        self.close(vec![start]);
    }

    /// Only the walks that read this word next can go on anew.
    fn store(&mut self, word: u64, value: u64) {
        self.words[word as usize] = value;
        let page = self.page;
        let readers = self.held.iter().copied();
        let readers = readers.filter(|walk| !walk.complete() && walk.next_word(page) == word);
        self.close(readers.collect());
    }

    /// Extend these walks as far as today's words go.
    fn close(&mut self, mut waiting: Vec<Walk>) {
        while let Some(walk) = waiting.pop() {
            if walk.complete() {
                continue;
            }
            let entry = Entry(self.words[walk.next_word(self.page) as usize]);
            if let Step::Extend(next) = walk.step(entry, self.guest_frames) {
                if self.held.insert(next) {
                    waiting.push(next);
                }
            }
        }
    }
}

#[derive(Clone, Copy, PartialEq, Eq, PartialOrd, Ord, Debug)]
pub enum Outcome {
    Address(Guest),
    Fault(u64),
}

/// The outcomes that these held walks give with the words at the end.
pub fn outcomes(held: &Held, end_words: &[u64], question: &Question) -> BTreeSet<Outcome> {
    let guest_frames = end_words.len() as u64 / WORDS_PER_FRAME;
    held.iter()
        .filter_map(|walk| outcome(walk, end_words, guest_frames, question))
        .collect()
}

fn outcome(walk: &Walk, words: &[u64], guest_frames: u64, question: &Question) -> Option<Outcome> {
    let request = request(question.request);
    if walk.complete() {
        return Some(if enough(walk.rights, request.needs) {
            Outcome::Address(walk.frame)
        } else {
            Outcome::Fault(1 + request.adds)
        });
    }
    let entry = Entry(words[walk.next_word(page_of(question.address)) as usize]);
    match walk.step(entry, guest_frames) {
        Step::Fault(base) => Some(Outcome::Fault(base + request.adds)),
        Step::Extend(_) => None,
    }
}

pub fn do_stores(words: &mut [u64], events: &[Event]) {
    for store in events.iter().filter(|event| event.kind == STORE) {
        words[store.a as usize] = store.b;
    }
}

/// The history of the question's processor, by sets, and its outcomes.
pub fn answers(
    words: &[u64],
    cr3s: &[u64],
    events: &[Event],
    question: &Question,
) -> (Held, BTreeSet<Outcome>) {
    answers_by(by_sets, words, cr3s, events, question)
}

fn answers_by(
    rule: Rule,
    words: &[u64],
    cr3s: &[u64],
    events: &[Event],
    question: &Question,
) -> (Held, BTreeSet<Outcome>) {
    let history = History {
        guest_frames: words.len() as u64 / WORDS_PER_FRAME,
        words,
        cr3: Guest(cr3s[question.processor as usize]),
        events,
        processor: question.processor,
    };
    let held = rule(&history, page_of(question.address));
    let mut end_words = words.to_vec();
    do_stores(&mut end_words, events);
    let outcomes = outcomes(&held, &end_words, question);
    (held, outcomes)
}

#[derive(Clone, Copy, PartialEq, Eq, Debug)]
pub struct Listed {
    pub refusal: u64,
    pub count: u64,
}

/// The sizes that a list call is given beside its buffers.
#[derive(Clone, Copy, Debug)]
pub struct ListSizes {
    pub guest_frames: u64,
    pub processors: u64,
    pub events: u64,
}

/// The list call: a refusal changes nothing; else the words get all stores, the
/// work bytes the held walks, and the outcome buffer the pairs.
#[allow(clippy::too_many_arguments)] // the buffers of document 01, each by its name
pub fn list(
    sizes: ListSizes,
    map: &[u64],
    words: &mut [u64],
    cr3s: &[u64],
    events: &[u64],
    question: Question,
    work: &mut [u8],
    outcome_buffer: &mut [u64],
) -> Listed {
    list_by(
        by_sets,
        sizes,
        map,
        words,
        cr3s,
        events,
        question,
        work,
        outcome_buffer,
    )
}

/// The list call with held walks found by this rule.
#[allow(clippy::too_many_arguments)] // as above
pub fn list_by(
    rule: Rule,
    sizes: ListSizes,
    map: &[u64],
    words: &mut [u64],
    cr3s: &[u64],
    events: &[u64],
    question: Question,
    work: &mut [u8],
    outcome_buffer: &mut [u64],
) -> Listed {
    let lengths = [
        map.len(),
        words.len(),
        cr3s.len(),
        events.len(),
        work.len(),
        outcome_buffer.len(),
    ];
    if !list_sizes_hold(sizes, lengths) {
        return Listed {
            refusal: 1,
            count: 0,
        };
    }
    let events: Vec<Event> = events
        .chunks(4)
        .map(|e| Event::new(e[0], e[1], e[2], e[3]))
        .collect();
    if let Some(refusal) = list_refusal(sizes, map, cr3s, &events, question) {
        return Listed { refusal, count: 0 };
    }
    let (held, outcomes) = answers_by(rule, words, cr3s, &events, &question);
    do_stores(words, &events);
    mark(&held, sizes.guest_frames, work);
    for (outcome, pair) in outcomes.iter().zip(outcome_buffer.chunks_mut(2)) {
        pair.copy_from_slice(&match *outcome {
            Outcome::Address(frame) => [0, frame.0],
            Outcome::Fault(code) => [1, code],
        });
    }
    Listed {
        refusal: 0,
        count: outcomes.len() as u64,
    }
}

pub fn list_sizes_hold(sizes: ListSizes, lengths: [usize; 6]) -> bool {
    let ListSizes {
        guest_frames,
        processors,
        events,
    } = sizes;
    let [map, words, cr3s, event_numbers, work, outcomes] = lengths.map(|length| length as u64);
    (1..=256).contains(&guest_frames)
        && (1..=4).contains(&processors)
        && events <= 4096
        && map == guest_frames
        && words == WORDS_PER_FRAME * guest_frames
        && cr3s == processors
        && event_numbers == 4 * events
        && work >= 40 * guest_frames
        && outcomes >= 2 * (guest_frames + 3)
}

/// "2 (map only), start CR3, the events in order, then the question"
fn list_refusal(
    sizes: ListSizes,
    map: &[u64],
    cr3s: &[u64],
    events: &[Event],
    question: Question,
) -> Option<u64> {
    let ListSizes {
        guest_frames,
        processors,
        ..
    } = sizes;
    lowest(&[
        (2, map_broken(map)),
        (7, cr3s.iter().any(|&cr3| cr3 >= guest_frames)),
    ])
    .or_else(|| {
        events
            .iter()
            .find_map(|event| event.refusal(guest_frames, processors))
    })
    .or_else(|| question.refusal(processors))
}

/// "Work byte ((l×G) + frame)×8 + rights is 1 for each held walk at level l"
fn mark(held: &Held, guest_frames: u64, work: &mut [u8]) {
    work[..(40 * guest_frames) as usize].fill(0);
    for walk in held {
        let place = (u64::from(walk.level) * guest_frames + walk.frame.0) * 8;
        work[place as usize + usize::from(walk.rights)] = 1;
    }
}
