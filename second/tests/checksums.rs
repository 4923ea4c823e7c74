//! The checksums that the proved programs `readings` and `known` print, worked out again from document 01: the sums of every
//! buffer that a read leaves, and the list, the words and the work bytes of the largest list call. What is taken over from
//! these programs is what they are given, a file of texts and a drawn guest, and how a sum is formed; not what they do.

use second::lists::{self, ListSizes};
use second::puzzle;
use second::quick;
use second::rules::{Event, Question};

/// Three times the sum so far and the next number, modulo 2^64.
fn sum(numbers: &[u64]) -> u64 {
    numbers.iter().fold(0u64, |total, &number| {
        total.wrapping_mul(3).wrapping_add(number)
    })
}

/// A buffer of this length full of sevens, with these numbers in front.
fn laid(length: usize, numbers: impl IntoIterator<Item = u64>) -> Vec<u64> {
    let mut buffer = vec![7; length];
    for (place, number) in buffer.iter_mut().zip(numbers) {
        *place = number;
    }
    buffer
}

/// What is printed of a read: refusal and line, or the five counts; then a sum of each buffer, sevens where nothing is written.
fn reading(text: &[u8]) -> String {
    let (verdict, sections) = match puzzle::read(text) {
        Err(refused) => (
            format!("R {} {}", refused.number, refused.line),
            [const { Vec::new() }; 5],
        ),
        Ok(puzzle) => {
            let counts = [
                puzzle.map.len(),
                puzzle.cr3s.len(),
                puzzle.words.len(),
                puzzle.events.len(),
                puzzle.questions.len(),
            ];
            let words = puzzle.start_words();
            let four = |e: &Event| [e.processor, e.kind, e.a, e.b];
            let three = |q: &Question| [q.processor, q.address, q.request];
            let events = puzzle.events.iter().flat_map(four).collect();
            let questions = puzzle.questions.iter().flat_map(three).collect();
            let counts = counts.map(|count| format!(" {count}")).concat();
            (
                format!("A{counts}"),
                [puzzle.map, puzzle.cr3s, words, events, questions],
            )
        }
    };
    let sums: String = [16, 4, 8192, 1024, 48]
        .into_iter()
        .zip(sections)
        .map(|(length, numbers)| format!(" {}", sum(&laid(length, numbers))))
        .collect();
    format!(": {verdict} ;{sums}")
}

/// The cases `label=text|` of a file, each label with the line feed before it.
fn cases(file: &str) -> Vec<(&str, &str)> {
    let ended = file.split_inclusive('|').filter(|case| case.ends_with('|'));
    ended
        .filter_map(|case| case.trim_end_matches('|').split_once('='))
        .collect()
}

#[test]
fn the_sums_of_every_reading() {
    let file = include_str!("../../crates/readings/stdin");
    let expected = include_str!("../../crates/readings/stdout");
    let mut printed = String::new();
    for (label, text) in cases(file) {
        printed += &(label.to_string() + &reading(text.as_bytes()));
    }
    printed += &("\n65,536 line feeds".to_string() + &reading(&[b'\n'; 65536]));
    printed += &("\n65,537 line feeds".to_string() + &reading(&[b'\n'; 65537]));
    // "1: a length … outside Sizes"; a text of the programs has line 0 then
    printed += "\na map of 15: R 1 0\n";
    for (line, wanted) in printed.lines().zip(expected.lines()) {
        assert_eq!(line, wanted);
    }
    assert_eq!(printed, expected);
}

/// The drawing that fills the largest call's buffers: a linear congruence, whose upper bits are used.
struct Drawn(u64);

impl Drawn {
    fn draw(&mut self) -> u64 {
        self.0 = (self.0 * 1_103_515_245 + 12_345) % (1 << 31);
        self.0 >> 16
    }
}

/// An entry to one of the frames 0, 17, .., 255 or to 272, which the guest lacks; mostly with all rights.
fn drawn_entry(drawn: u64) -> u64 {
    let flags = [7, 7, 7, 7, 3, 5, 6, (1 << 63) + 7];
    ((drawn % 17 * 17) << 12) + flags[(drawn / 17 % 8) as usize]
}

const INDICES_1_TO_4: u64 = (1 << 39) + (2 << 30) + (3 << 21) + (4 << 12) + 5;

/// Mostly stores, by all four processors, into entries of the page asked about.
fn drawn_events(drawn: &mut Drawn, count: usize) -> Vec<u64> {
    let mut events = Vec::new();
    for _ in 0..count {
        let processor = drawn.draw() % 4;
        let kind = match drawn.draw() % 64 {
            other @ 1..=7 => other,
            _ => 1,
        };
        let (first, second) = (drawn.draw(), drawn.draw());
        let a = match kind {
            1 => 512 * (17 * (first % 16)) + 1 + first / 16 % 4,
            3 => 17 * (first % 16),
            6 | 7 => first % 8,
            _ => INDICES_1_TO_4 + 4096 * (first % 2),
        };
        let b = match kind {
            1 => drawn_entry(second),
            4 => second % 6,
            5 => second % 8,
            _ => 0,
        };
        events.extend([processor, kind, a, b]);
    }
    events
}

#[test]
fn the_largest_list_call_of_known() {
    let expected = include_str!("../../crates/known/stdout");
    let map: Vec<u64> = (1000..1256).collect();
    let events = drawn_events(&mut Drawn(1), 4096);
    let mut drawn = Drawn(6);
    let start: Vec<u64> = (0..512 * 256).map(|_| drawn_entry(drawn.draw())).collect();
    for list in [lists::list, quick::list] {
        let (mut words, mut work, mut outcomes) =
            (start.clone(), vec![0; 40 * 256], vec![0; 2 * 259]);
        let listed = list(
            ListSizes {
                guest_frames: 256,
                processors: 4,
                events: 4096,
            },
            &map,
            &mut words,
            &[0, 17, 34, 51],
            &events,
            Question::new(1, INDICES_1_TO_4, 1),
            &mut work,
            &mut outcomes,
        );
        let pairs: String = outcomes[..2 * listed.count as usize]
            .chunks(2)
            .map(|pair| format!(" ({} {})", pair[0], pair[1]))
            .collect();
        let held: Vec<u64> = work.iter().map(|&byte| u64::from(byte)).collect();
        let printed = format!(
            "256 frames, 4,096 events: {} {}{pairs}\nsums of the words and of the work bytes: {} {}\n",
            listed.refusal,
            listed.count,
            sum(&words),
            sum(&held)
        );
        let at = expected.find("256 frames").expect("known prints this row");
        assert_eq!(&expected[at..], printed);
    }
}
