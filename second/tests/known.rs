//! The known puzzles, the known run and the example of document 01.

use second::flat::{self, Reply, Sizes};
use second::machine::{Answer, Machine};
use second::report;
use second::rules::*;

const EXAMPLE: &str = "6 100 101 102 103 104 105
1 0
4 0 4103 512 8199 1024 12295 1536 16391
1 0 1 1536 20487
1 0 8 0
";

/// The example's start with these level 3 and level 1 entries.
fn start(word_512: u64, word_1536: u64) -> String {
    format!("6 100 101 102 103 104 105 1 0 4 0 4103 512 {word_512} 1024 12295 1536 {word_1536}")
}

/// The outcomes of one question as document 01's list of known puzzles has them.
fn outcomes(start: &str, events: &[&str], question: &str) -> String {
    let text = format!("{start} {} {} 1 {question}", events.len(), events.join(" "));
    let printed = report::answers(text.as_bytes());
    let mut outcomes = Vec::new();
    for line in printed.lines().skip(1) {
        let words: Vec<&str> = line.split(' ').collect();
        outcomes.push(format!("{} {}", words[0], words[1]));
    }
    outcomes.join(", ")
}

#[test]
fn the_example_to_the_byte() {
    assert_eq!(
        report::answers(EXAMPLE.as_bytes()),
        "Q 0 8 0 2\nA 4 425992\nA 5 430088\n"
    );
}

#[test]
fn the_known_puzzles() {
    let plain = start(8199, 16391);
    let absent = start(8199, 0);
    let store = "0 1 1536 20487";
    let known: [(&str, &str, &[&str], &str, &str); 12] = [
        ("nothing changed", &plain, &[], "0 8 0", "A 4"),
        ("store", &plain, &[store], "0 8 0", "A 4, A 5"),
        ("then INVLPG 8", &plain, &[store, "0 2 8 0"], "0 8 0", "A 5"),
        (
            "INVLPG 4096 instead",
            &plain,
            &[store, "0 2 4096 0"],
            "0 8 0",
            "A 4, A 5",
        ),
        (
            "CR3 write 0 instead",
            &plain,
            &[store, "0 3 0 0"],
            "0 8 0",
            "A 5",
        ),
        ("store 0", &plain, &["0 1 1536 0"], "0 8 0", "A 4, F 0"),
        ("start 16389", &start(8199, 16389), &[], "0 8 4", "F 7"),
        ("start 24583", &start(8199, 24583), &[], "0 8 0", "F 9"),
        (
            "no-execute",
            &start(8199, 9223372036854792199),
            &[],
            "0 8 2",
            "F 17",
        ),
        (
            "rights after the walk",
            &start(8197, 0),
            &[],
            "0 8 1",
            "F 2",
        ),
        (
            "an old partial walk",
            &absent,
            &["0 1 1024 20487", "0 1 1536 16391"],
            "0 8 0",
            "A 4, F 0",
        ),
        (
            "which INVLPG of another page ends",
            &absent,
            &["0 1 1024 20487", "0 2 4096 0", "0 1 1536 16391"],
            "0 8 0",
            "F 0",
        ),
    ];
    for (name, start, events, question, expected) in known {
        assert_eq!(outcomes(start, events, question), expected, "{name}");
    }
}

#[test]
fn thirteen_frames_give_nine_answers() {
    let frames: Vec<String> = (100..113).map(|frame| frame.to_string()).collect();
    let start = format!(
        "13 {} 1 0 4 0 4103 512 8199 1024 12295 1536 16391",
        frames.join(" ")
    );
    let stores: Vec<String> = (5..13)
        .map(|frame| format!("0 1 1536 {}", frame * 4096 + 7))
        .collect();
    let stores: Vec<&str> = stores.iter().map(String::as_str).collect();
    assert_eq!(
        outcomes(&start, &stores, "0 8 0"),
        "A 4, A 5, A 6, A 7, A 8, A 9, A 10, A 11, A 12"
    );
}

#[test]
fn the_known_run() {
    let access = "0 4 8 0";
    let events = [
        access,
        access,
        "0 1 1536 20487",
        access,
        "0 2 8 0",
        access,
        access,
    ]
    .join(" ");
    let text = format!("{} 7 {events} 1 0 8 0", start(8199, 16391));
    let expected = "E 1 3 0\nE 2 1 425992\nE 3 0 0\nE 4 1 425992\nE 5 0 0\nE 6 3 0\nE 7 1 430088\n";
    assert_eq!(report::run(text.as_bytes()), expected);
}

#[test]
fn the_known_words_and_shadow_entries() {
    let map: Vec<u64> = (100..106).collect();
    let mut words = vec![0; 512 * 6];
    for (word, value) in [(0, 4103), (512, 8199), (1024, 12295), (1536, 16391)] {
        words[word] = value;
    }
    let sizes = Sizes {
        guest_frames: 6,
        processors: 1,
        share: 4,
        base: 1 << 20,
    };
    let mut shadow = flat::zeros(1, 4);
    flat::setup(&sizes, &map, &[0], &mut shadow);
    let again = Reply {
        refusal: 0,
        kind: 3,
        value: 0,
    };
    let read = Event::new(0, ACCESS, 8, 0);
    assert_eq!(
        flat::event(&sizes, &map, &mut words, &mut shadow, &read),
        again
    );
    assert_eq!((words[1536], shadow.pool[512 * 3]), (16423, 426021));
    let write = Event::new(0, ACCESS, 8, 1);
    assert_eq!(
        flat::event(&sizes, &map, &mut words, &mut shadow, &write),
        again
    );
    assert_eq!((words[1536], shadow.pool[512 * 3]), (16487, 426087));
    assert_eq!(shadow.records, [4, 0, 3, 1, 2, 2, 1, 3]);
}

#[test]
fn the_sides_for_six_frames() {
    let mut machine = Machine::new(
        Map::new(&[100, 101, 102, 103, 104, 105]),
        vec![0; 3072],
        4,
        &[0],
    );
    let half = 1u64 << 47;
    let sides: [(Event, Option<u64>); 13] = [
        (Event::new(0, STORE, 3071, 1), None),
        (Event::new(0, STORE, 3072, 1), Some(8)),
        (Event::new(0, CR3_WRITE, 5, 0), None),
        (Event::new(0, CR3_WRITE, 6, 0), Some(7)),
        (Event::new(0, DROP, 7, 0), None),
        (Event::new(0, DROP, 8, 0), Some(9)),
        (Event::new(0, BEGIN, 0, 8), Some(9)),
        (Event::new(0, ACCESS, 0, 5), None),
        (Event::new(0, ACCESS, 0, 6), Some(6)),
        (Event::new(0, INVLPG, half - 1, 0), None),
        (Event::new(0, INVLPG, half, 0), Some(5)),
        (
            Event::new(0, INVLPG, 0u64.wrapping_sub(half) - 1, 0),
            Some(5),
        ),
        (Event::new(0, INVLPG, 0u64.wrapping_sub(half), 0), None),
    ];
    for (event, refusal) in sides {
        assert_eq!(event.refusal(6, 1), refusal, "{event:?}");
        if refusal.is_none() {
            assert_ne!(machine.happen(&event), Answer::Again);
        }
    }
}
