//! The calls in document 01's numbers, as include/flamecurl.h has them: each returns its refusal number and fills an answer
//! buffer. Here is the only unsafe code: each slice is lent as its pointer and its length. Sound because Rust's slices are never null, are aligned and do not overlap where one is lent for writing, and because
//! the callee's contracts hold for all contents and lengths.

use crate::{Event, Question, Sizes};

extern "C" {
    fn flamecurl_list(
        map: *const u64,
        map_count: usize,
        words: *mut u64,
        words_count: usize,
        cr3s: *const u64,
        cr3s_count: usize,
        events: *const u64,
        events_count: usize,
        work: *mut u8,
        work_count: usize,
        outcomes: *mut u64,
        outcomes_count: usize,
        answer: *mut u64,
        answer_count: usize,
        processor: u64,
        address: u64,
        request: u64,
    ) -> u64;

    fn flamecurl_setup(
        map: *const u64,
        map_count: usize,
        cr3s: *const u64,
        cr3s_count: usize,
        pool: *mut u64,
        pool_count: usize,
        records: *mut u64,
        records_count: usize,
        slots: *mut u64,
        slots_count: usize,
        frames: u64,
        processors: u64,
        share: u64,
        base: u64,
    ) -> u64;

    fn flamecurl_event(
        map: *const u64,
        map_count: usize,
        words: *mut u64,
        words_count: usize,
        pool: *mut u64,
        pool_count: usize,
        records: *mut u64,
        records_count: usize,
        slots: *mut u64,
        slots_count: usize,
        answer: *mut u64,
        answer_count: usize,
        frames: u64,
        processors: u64,
        share: u64,
        base: u64,
        processor: u64,
        kind: u64,
        a: u64,
        b: u64,
    ) -> u64;

    fn flamecurl_read(
        text: *const u8,
        text_count: usize,
        map: *mut u64,
        map_count: usize,
        cr3s: *mut u64,
        cr3s_count: usize,
        words: *mut u64,
        words_count: usize,
        events: *mut u64,
        events_count: usize,
        questions: *mut u64,
        questions_count: usize,
        answer: *mut u64,
        answer_count: usize,
    ) -> u64;

    fn flamecurl_answers(
        text: *const u8,
        text_count: usize,
        output: *mut u8,
        output_count: usize,
        answer: *mut u64,
        answer_count: usize,
    ) -> u64;

    fn flamecurl_run(
        text: *const u8,
        text_count: usize,
        output: *mut u8,
        output_count: usize,
        answer: *mut u64,
        answer_count: usize,
    ) -> u64;
}

#[allow(clippy::too_many_arguments)] // the buffers of the call, each by its name
pub fn list(
    map: &[u64],
    words: &mut [u64],
    cr3s: &[u64],
    events: &[u64],
    work: &mut [u8],
    outcomes: &mut [u64],
    answer: &mut [u64],
    question: Question,
) -> u64 {
    unsafe {
        flamecurl_list(
            map.as_ptr(),
            map.len(),
            words.as_mut_ptr(),
            words.len(),
            cr3s.as_ptr(),
            cr3s.len(),
            events.as_ptr(),
            events.len(),
            work.as_mut_ptr(),
            work.len(),
            outcomes.as_mut_ptr(),
            outcomes.len(),
            answer.as_mut_ptr(),
            answer.len(),
            question.processor,
            question.address,
            question.request,
        )
    }
}

pub fn setup(
    map: &[u64],
    cr3s: &[u64],
    pool: &mut [u64],
    records: &mut [u64],
    slots: &mut [u64],
    sizes: Sizes,
) -> u64 {
    unsafe {
        flamecurl_setup(
            map.as_ptr(),
            map.len(),
            cr3s.as_ptr(),
            cr3s.len(),
            pool.as_mut_ptr(),
            pool.len(),
            records.as_mut_ptr(),
            records.len(),
            slots.as_mut_ptr(),
            slots.len(),
            sizes.frames,
            sizes.processors,
            sizes.share,
            sizes.base,
        )
    }
}

#[allow(clippy::too_many_arguments)] // the buffers of the call, each by its name
pub fn event(
    map: &[u64],
    words: &mut [u64],
    pool: &mut [u64],
    records: &mut [u64],
    slots: &mut [u64],
    answer: &mut [u64],
    sizes: Sizes,
    event: Event,
) -> u64 {
    unsafe {
        flamecurl_event(
            map.as_ptr(),
            map.len(),
            words.as_mut_ptr(),
            words.len(),
            pool.as_mut_ptr(),
            pool.len(),
            records.as_mut_ptr(),
            records.len(),
            slots.as_mut_ptr(),
            slots.len(),
            answer.as_mut_ptr(),
            answer.len(),
            sizes.frames,
            sizes.processors,
            sizes.share,
            sizes.base,
            event.processor,
            event.kind,
            event.a,
            event.b,
        )
    }
}

pub fn read(
    text: &[u8],
    map: &mut [u64],
    cr3s: &mut [u64],
    words: &mut [u64],
    events: &mut [u64],
    questions: &mut [u64],
    answer: &mut [u64],
) -> u64 {
    unsafe {
        flamecurl_read(
            text.as_ptr(),
            text.len(),
            map.as_mut_ptr(),
            map.len(),
            cr3s.as_mut_ptr(),
            cr3s.len(),
            words.as_mut_ptr(),
            words.len(),
            events.as_mut_ptr(),
            events.len(),
            questions.as_mut_ptr(),
            questions.len(),
            answer.as_mut_ptr(),
            answer.len(),
        )
    }
}

pub fn answers(text: &[u8], output: &mut [u8], answer: &mut [u64]) -> u64 {
    unsafe {
        flamecurl_answers(
            text.as_ptr(),
            text.len(),
            output.as_mut_ptr(),
            output.len(),
            answer.as_mut_ptr(),
            answer.len(),
        )
    }
}

pub fn run(text: &[u8], output: &mut [u8], answer: &mut [u64]) -> u64 {
    unsafe {
        flamecurl_run(
            text.as_ptr(),
            text.len(),
            output.as_mut_ptr(),
            output.len(),
            answer.as_mut_ptr(),
            answer.len(),
        )
    }
}
