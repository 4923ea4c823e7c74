//! What the reader of puzzle text refuses, and where.

use second::gen::{self, sample};
use second::puzzle::{self, Refused};

const VALID: &str = "2 100 101
1 0
2 0 1 512 18446744073709551615
7
0 1 1023 5
0 2 8 0
0 3 1 0
0 4 8 5
0 5 8 7
0 6 7 0
0 7 0 0
2
0 8 0
0 140737488355327 5
";

fn refused(text: impl AsRef<[u8]>) -> (u64, u64) {
    match puzzle::read(text.as_ref()) {
        Ok(_) => (0, 0),
        Err(Refused { number, line }) => (number, line),
    }
}

/// The valid text with one piece of it replaced.
fn changed(from: &str, to: &str) -> (u64, u64) {
    assert!(VALID.contains(from), "{from}");
    refused(VALID.replacen(from, to, 1))
}

#[test]
fn the_valid_text_is_read() {
    let puzzle = puzzle::read(VALID.as_bytes()).unwrap();
    assert_eq!(puzzle.words, [(0, 1), (512, u64::MAX)]);
    assert_eq!((puzzle.events.len(), puzzle.questions.len()), (7, 2));
    assert_eq!(puzzle::read(&gen::plain(&gen::tokens(&puzzle))), Ok(puzzle));
    assert_eq!(refused(VALID.replace('\n', " ")), (0, 0));
    assert_eq!(refused(VALID.replace(' ', "\n\n ")), (0, 0));
    assert_eq!(refused(format!(" \n{}", VALID.trim_end())), (0, 0));
}

#[test]
fn a_number_is_judged_before_what_follows() {
    assert_eq!(refused("17x"), (11, 1));
    assert_eq!(refused("6x"), (10, 1));
    assert_eq!(refused("\n6\nx"), (10, 3));
    assert_eq!(refused("017"), (10, 1));
    assert_eq!(refused("17"), (11, 1));
    assert_eq!(refused("16"), (10, 1));
}

#[test]
fn zeros_and_great_numbers() {
    assert_eq!(refused("00"), (10, 1));
    assert_eq!(refused("01"), (10, 1));
    assert_eq!(refused("0"), (11, 1));
    assert_eq!(refused("18446744073709551615"), (11, 1));
    assert_eq!(refused("18446744073709551616"), (10, 1));
    assert_eq!(refused("9".repeat(5000)), (10, 1));
    assert_eq!(refused("1".repeat(65_536)), (10, 1));
    assert_eq!(
        changed("18446744073709551615", "18446744073709551616"),
        (10, 3)
    );
    assert_eq!(changed("18446744073709551615", "00"), (10, 3));
}

#[test]
fn a_missing_number_stands_at_the_end() {
    assert_eq!(refused(""), (10, 1));
    assert_eq!(refused("\n".repeat(65_536)), (10, 65_537));
    assert_eq!(refused(" ".repeat(65_536)), (10, 1));
    assert_eq!(refused("2 5\n\n \n"), (10, 4));
    assert_eq!(refused(VALID.trim_end().trim_end_matches('5')), (10, 14));
    assert_eq!(refused("1 0 1 0 0 0 0"), (11, 1));
    assert_eq!(refused("1 0 1 0 0 0"), (10, 1));
}

#[test]
fn left_over_numbers_and_bytes() {
    assert_eq!(refused(format!("{VALID}\n1")), (10, 16));
    assert_eq!(refused(format!("{VALID}99999999999999999999999")), (10, 15));
    assert_eq!(refused(format!("{VALID}\n\t")), (10, 16));
    assert_eq!(refused(format!("{VALID}  \n\n ")), (0, 0));
}

#[test]
fn over_long_texts() {
    let pad = |length: usize| {
        let mut text = VALID.as_bytes().to_vec();
        text.resize(length, b' ');
        text
    };
    assert_eq!(refused(pad(65_536)), (0, 0));
    assert_eq!(refused(pad(65_537)), (1, 0));
    assert_eq!(refused("x".repeat(65_537)), (1, 0));
    assert_eq!(refused("x".repeat(65_536)), (10, 1));
}

#[test]
fn bad_bytes() {
    for bad in ["\t", "\r", "x", "-", "+", ".", ",", "/", ":", "\0", "é"] {
        assert_eq!(
            changed("1 0\n2", &format!("1 {bad}0\n2")),
            (10, 2),
            "{bad:?}"
        );
        assert_eq!(
            changed("7\n0 1", &format!("7{bad}\n0 1")),
            (10, 4),
            "{bad:?}"
        );
    }
    assert_eq!(refused([b'1', b' ', 0xff]), (10, 1));
}

#[test]
fn counts_outside() {
    assert_eq!(refused("0"), (11, 1));
    assert_eq!(changed("\n1 0\n", "\n0\n"), (11, 2));
    assert_eq!(changed("\n1 0\n", "\n5\n"), (11, 2));
    assert_eq!(changed("\n2 0 1", "\n1025 0 1"), (11, 3));
    assert_eq!(
        changed("\n2 0 1", "\n1024 0 1"),
        (11, 4),
        "line 4 has a 7 where a word above 512 is due"
    );
    assert_eq!(changed("\n7\n", "\n257\n"), (11, 4));
    assert_eq!(changed("\n2\n0 8", "\n0\n0 8"), (11, 12));
    assert_eq!(changed("\n2\n0 8", "\n17\n0 8"), (11, 12));
}

#[test]
fn numbers_out_of_range() {
    assert_eq!(changed("100 101", "1048575 0"), (0, 0));
    assert_eq!(changed("100 101", "100 1048576"), (11, 1));
    assert_eq!(changed("100 101", "100\n100"), (11, 2));
    assert_eq!(changed("\n1 0\n", "\n1\n2\n"), (11, 3));
    assert_eq!(changed("512 18446744073709551615", "0 1"), (11, 3));
    assert_eq!(changed("512 18446744073709551615", "1024 1"), (11, 3));
    assert_eq!(changed("512 18446744073709551615", "1 1"), (0, 0));
    assert_eq!(changed("0 1 1023", "1 1 1023"), (11, 5));
    assert_eq!(changed("0 1 1023", "0 1 1024"), (11, 5));
    assert_eq!(changed("0 2 8 0", "0 2 140737488355328 0"), (11, 6));
    assert_eq!(changed("0 2 8 0", "0 2 18446603336221196287 0"), (11, 6));
    assert_eq!(changed("0 2 8 0", "0 2 18446603336221196288 0"), (0, 0));
    assert_eq!(changed("0 2 8 0", "0 2 8 \n1"), (11, 7));
    assert_eq!(changed("0 3 1 0", "0 3 2 0"), (11, 7));
    assert_eq!(changed("0 3 1 0", "0 3 1 1"), (11, 7));
    assert_eq!(changed("0 4 8 5", "0 4 8 6"), (11, 8));
    assert_eq!(changed("0 5 8 7", "0 5 8 8"), (11, 9));
    assert_eq!(changed("0 6 7 0", "0 6 8 0"), (11, 10));
    assert_eq!(changed("0 6 7 0", "0 6 7 1"), (11, 10));
    assert_eq!(changed("0 7 0 0", "0 7 8 0"), (11, 11));
    assert_eq!(changed("0 7 0 0", "0 7 0 1"), (11, 11));
    assert_eq!(changed("0 8 0", "1 8 0"), (11, 13));
    assert_eq!(changed("0 8 0", "0 140737488355328 0"), (11, 13));
    assert_eq!(changed("355327 5", "355327 6"), (11, 14));
}

#[test]
fn an_unknown_kind_hides_what_follows_it() {
    assert_eq!(changed("0 1 1023 5", "0\n8 x"), (11, 6));
    assert_eq!(changed("0 1 1023 5", "0 0 00"), (11, 5));
    assert_eq!(changed("0 1 1023 5", "0 08 0"), (10, 5));
}

#[test]
fn samples_are_what_they_are_called() {
    let damages = gen::DAMAGES;
    let mut refusals = std::collections::BTreeMap::<&str, [u32; 2]>::new();
    for number in 0..3000 {
        let sample = sample(77, number);
        let read = puzzle::read(&sample.text);
        assert!(
            read.is_ok() || damages.contains(&sample.kind),
            "{}",
            sample.kind
        );
        refusals.entry(sample.kind).or_default()[usize::from(read.is_err())] += 1;
    }
    for kind in damages {
        assert!(refusals[kind][1] > 20, "{kind} {:?}", refusals[kind]);
    }
}
