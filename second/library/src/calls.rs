//! A case put to the proved library and to the second program.

use crate::case::{After, Call, Case};
use flamecurl::numbers as proved;
use second::flat::{self, Shadow, Sizes};
use second::lists::{self, ListSizes, Rule};
use second::puzzle;
use second::report;
use second::rules::{Event, Question};

fn bytes(buffer: &[u64]) -> Vec<u8> {
    buffer.iter().map(|&byte| byte as u8).collect()
}

fn numbers(buffer: &[u8]) -> Vec<u64> {
    buffer.iter().map(|&byte| u64::from(byte)).collect()
}

/// What the proved library does.
pub fn put_to_library(case: &Case) -> After {
    let mut after = After {
        refusal: 0,
        buffers: case.buffers.clone(),
    };
    let n = &case.numbers;
    after.refusal = match (case.call, after.buffers.as_mut_slice()) {
        (Call::List, [map, words, cr3s, events, work, outcomes, answer]) => {
            let question = flamecurl::Question {
                processor: n[0],
                address: n[1],
                request: n[2],
            };
            let mut held = bytes(work);
            let refusal = proved::list(
                map, words, cr3s, events, &mut held, outcomes, answer, question,
            );
            *work = numbers(&held);
            refusal
        }
        (Call::Setup, [map, cr3s, pool, records, slots]) => {
            proved::setup(map, cr3s, pool, records, slots, library_sizes(n))
        }
        (Call::Event, [map, words, pool, records, slots, answer]) => {
            let event = flamecurl::Event {
                processor: n[4],
                kind: n[5],
                a: n[6],
                b: n[7],
            };
            let sizes = library_sizes(n);
            proved::event(map, words, pool, records, slots, answer, sizes, event)
        }
        (Call::Read, [text, map, cr3s, words, events, questions, answer]) => {
            proved::read(&bytes(text), map, cr3s, words, events, questions, answer)
        }
        (call, [text, output, answer]) => {
            let mut out = bytes(output);
            let program = match call {
                Call::Answers => proved::answers,
                _ => proved::run,
            };
            let refusal = program(&bytes(text), &mut out, answer);
            *output = numbers(&out);
            refusal
        }
        _ => unreachable!("a case has the buffers of its call"),
    };
    after
}

fn library_sizes(n: &[u64]) -> flamecurl::Sizes {
    flamecurl::Sizes {
        frames: n[0],
        processors: n[1],
        share: n[2],
        base: n[3],
    }
}

/// What the second program does. "A refusal returns its number, zeros else, and changes nothing."
pub fn put_to_second(case: &Case) -> After {
    put_to_rule(lists::by_sets, case)
}

/// The same, with the held walks of a list call found by this rule.
pub fn put_to_rule(rule: Rule, case: &Case) -> After {
    let mut after = After {
        refusal: 0,
        buffers: case.buffers.clone(),
    };
    let answer_length = match case.call {
        Call::List => 2,
        Call::Event => 3,
        Call::Answers | Call::Run => 4,
        Call::Read => 7,
        Call::Setup => 0,
    };
    if case.call != Call::Setup && case.buffer("answer").len() != answer_length {
        after.refusal = 1;
        return after;
    }
    let answer = match case.call {
        Call::List => second_list(rule, case, &mut after.buffers),
        Call::Setup => second_setup(case, &mut after.buffers),
        Call::Event => second_event(case, &mut after.buffers),
        Call::Read => second_read(case, &mut after.buffers),
        Call::Answers => second_program(case, &mut after.buffers, report::answers),
        Call::Run => second_program(case, &mut after.buffers, report::run),
    };
    after.refusal = answer[0];
    if case.call != Call::Setup {
        after.buffers[case.at("answer")] = answer;
    }
    after
}

fn second_list(rule: Rule, case: &Case, buffers: &mut [Vec<u64>]) -> Vec<u64> {
    let [map, words, cr3s, events, work, outcomes, _] = buffers else {
        unreachable!("a list call has seven buffers");
    };
    let sizes = ListSizes {
        guest_frames: map.len() as u64,
        processors: cr3s.len() as u64,
        events: events.len() as u64 / 4,
    };
    let question = Question::new(case.numbers[0], case.numbers[1], case.numbers[2]);
    let mut held = bytes(work);
    let listed = lists::list_by(
        rule, sizes, map, words, cr3s, events, question, &mut held, outcomes,
    );
    *work = numbers(&held);
    vec![listed.refusal, listed.count]
}

fn sizes(n: &[u64]) -> Sizes {
    Sizes {
        guest_frames: n[0],
        processors: n[1],
        share: n[2],
        base: n[3],
    }
}

fn take_shadow(buffers: &mut [Vec<u64>]) -> Shadow {
    let [pool, records, slots] = buffers else {
        unreachable!("pool, records and slots stand together");
    };
    Shadow {
        pool: std::mem::take(pool),
        records: std::mem::take(records),
        slots: std::mem::take(slots),
    }
}

fn give_shadow(buffers: &mut [Vec<u64>], shadow: Shadow) {
    buffers.clone_from_slice(&[shadow.pool, shadow.records, shadow.slots]);
}

fn second_setup(case: &Case, buffers: &mut [Vec<u64>]) -> Vec<u64> {
    let mut shadow = take_shadow(&mut buffers[2..5]);
    let reply = flat::setup(&sizes(&case.numbers), &buffers[0], &buffers[1], &mut shadow);
    give_shadow(&mut buffers[2..5], shadow);
    vec![reply.refusal]
}

fn second_event(case: &Case, buffers: &mut [Vec<u64>]) -> Vec<u64> {
    let n = &case.numbers;
    let event = Event::new(n[4], n[5], n[6], n[7]);
    let mut words = std::mem::take(&mut buffers[1]);
    let mut shadow = take_shadow(&mut buffers[2..5]);
    let reply = flat::event(&sizes(n), &buffers[0], &mut words, &mut shadow, &event);
    give_shadow(&mut buffers[2..5], shadow);
    buffers[1] = words;
    vec![reply.refusal, reply.kind, reply.value]
}

/// The numbers in front of the buffer; "the rest stays".
fn lay(buffer: &mut [u64], numbers: impl IntoIterator<Item = u64>) {
    for (place, number) in buffer.iter_mut().zip(numbers) {
        *place = number;
    }
}

fn second_read(case: &Case, buffers: &mut [Vec<u64>]) -> Vec<u64> {
    let [_, map, cr3s, words, events, questions, _] = buffers else {
        unreachable!("a read call has seven buffers");
    };
    let lengths = [&*map, cr3s, words, events, questions].map(|buffer| buffer.len());
    if lengths != [16, 4, 8192, 1024, 48] {
        return vec![1, 0, 0, 0, 0, 0, 0];
    }
    let puzzle = match puzzle::read(&bytes(case.buffer("text"))) {
        Ok(puzzle) => puzzle,
        Err(refused) => return vec![refused.number, refused.line, 0, 0, 0, 0, 0],
    };
    lay(map, puzzle.map.iter().copied());
    lay(cr3s, puzzle.cr3s.iter().copied());
    lay(words, puzzle.start_words());
    let four = |e: &Event| [e.processor, e.kind, e.a, e.b];
    lay(events, puzzle.events.iter().flat_map(four));
    let three = |q: &Question| [q.processor, q.address, q.request];
    lay(questions, puzzle.questions.iter().flat_map(three));
    let counts = [
        puzzle.map.len(),
        puzzle.cr3s.len(),
        puzzle.words.len(),
        puzzle.events.len(),
        puzzle.questions.len(),
    ];
    [0, 0].into_iter().chain(counts.map(|n| n as u64)).collect()
}

fn second_program(case: &Case, buffers: &mut [Vec<u64>], program: fn(&[u8]) -> String) -> Vec<u64> {
    let output = &mut buffers[1];
    if output.len() != 16384 {
        return vec![1, 0, 0, 0];
    }
    let text = bytes(case.buffer("text"));
    let printed = program(&text);
    lay(output, printed.bytes().map(u64::from));
    let (number, line) = match puzzle::read(&text) {
        Ok(_) => (0, 0),
        Err(refused) => (refused.number, refused.line),
    };
    vec![0, printed.len() as u64, number, line]
}
