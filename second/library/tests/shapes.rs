//! The library cases reach what they are made for: states that no run reaches, and histories past the second program's tests.

use library::calls::put_to_second;
use library::case::{Call, Case};
use library::make;

/// Levels of the live tables of a state that have no entry.
fn bare_levels(case: &Case) -> Vec<u64> {
    let records = case.buffer("records").chunks(2);
    let tables = case.buffer("pool").chunks(512).zip(records);
    let bare = tables.filter(|(entries, record)| record[0] != 0 && entries.iter().all(|&e| e == 0));
    bare.map(|(_, record)| record[0]).collect()
}

/// How many entries of each level are present.
fn entries(case: &Case, level: u64) -> usize {
    let records = case.buffer("records").chunks(2);
    let tables = case.buffer("pool").chunks(512).zip(records);
    let of_level = tables.filter(|(_, record)| record[0] == level);
    of_level
        .map(|(entries, _)| entries.iter().filter(|&&e| e != 0).count())
        .sum()
}

/// A run leaves no table above level 1 without an entry but a root, and never more tables of level 2 than pages were filled.
#[test]
fn some_states_have_shapes_that_no_run_reaches() {
    let (mut bare, mut wide) = ([0; 5], 0);
    for number in 0..4000 {
        let case = make::case(1, number);
        if case.call != Call::Event || put_to_second(&case).refusal != 0 {
            continue;
        }
        for level in bare_levels(&case) {
            bare[level as usize] += 1;
        }
        wide += u64::from(entries(&case, 3) > 3 && entries(&case, 1) == 0);
    }
    assert!(bare[2] > 50 && bare[3] > 50, "{bare:?}");
    assert!(wide > 0, "{wide}");
}

#[test]
fn the_literal_rule_is_tried_on_more_than_twelve_events_and_six_frames() {
    let (mut events, mut frames) = (Vec::new(), Vec::new());
    for number in 0..300 {
        let case = make::short_list(1, number);
        events.push(case.buffer("events").len() / 4);
        frames.push(case.buffer("map").len());
    }
    assert!(events.iter().all(|&n| n > 12) && events.iter().any(|&n| n > 40));
    assert!(frames.iter().all(|&n| n > 6) && frames.iter().any(|&n| n > 200));
}
