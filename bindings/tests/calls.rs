//! Each call on the scope document's puzzle, and each refusal number that a call can give.

use flamecurl::*;

const MAP: [u64; 6] = [100, 101, 102, 103, 104, 105];
const SIZES: Sizes = Sizes {
    frames: 6,
    processors: 1,
    share: 4,
    base: 1 << 20,
};
const TEXT: &[u8] = b"6 100 101 102 103 104 105\n1 0\n4 0 4103 512 8199 1024 12295 1536 16391\n1 0 1 1536 20487\n1 0 8 0\n";

fn start() -> Vec<u64> {
    let mut words = vec![0; 512 * 6];
    for (word, value) in [(0, 4103), (512, 8199), (1024, 12295), (1536, 16391)] {
        words[word] = value;
    }
    words
}

fn ask(events: &[u64], question: Question) -> Result<Vec<Outcome>, Refusal> {
    let (mut words, mut work, mut buffer) = (start(), [7; 250], [7; 20]);
    let count = list(
        &MAP,
        &mut words,
        &[0],
        events,
        &mut work,
        &mut buffer,
        question,
    )?;
    assert!(work[240..].iter().all(|&byte| byte == 7));
    assert!(buffer[2 * count..].iter().all(|&number| number == 7));
    Ok(outcomes(&buffer, count).collect())
}

const QUESTION: Question = Question {
    processor: 0,
    address: 8,
    request: 0,
};

#[test]
fn a_list() {
    let stored = [0, 1, 1536, 20487];
    assert_eq!(ask(&[], QUESTION), Ok(vec![Outcome::Frame(4)]));
    assert_eq!(
        ask(&stored, QUESTION),
        Ok(vec![Outcome::Frame(4), Outcome::Frame(5)])
    );
    assert_eq!(
        ask(&[0, 1, 1536, 0], QUESTION),
        Ok(vec![Outcome::Frame(4), Outcome::Fault(0)])
    );
}

#[test]
fn refusals_of_a_list() {
    let refused = |event: [u64; 4]| ask(&event, QUESTION).unwrap_err().number();
    assert_eq!(refused([1, 1, 0, 0]), 4);
    assert_eq!(refused([0, 2, 1 << 47, 0]), 5);
    assert_eq!(refused([0, 4, 8, 6]), 6);
    assert_eq!(refused([0, 3, 6, 0]), 7);
    assert_eq!(refused([0, 1, 3072, 0]), 8);
    assert_eq!(refused([0, 6, 8, 0]), 9);
    assert_eq!(refused([0, 8, 0, 0]), 11);
    assert_eq!(ask(&[0, 1, 2], QUESTION), Err(Refusal::Size));
    let repeated = [1, 1];
    let mut words = [0; 1024];
    let listed = list(
        &repeated,
        &mut words,
        &[0],
        &[],
        &mut [0; 80],
        &mut [0; 10],
        QUESTION,
    );
    assert_eq!(listed, Err(Refusal::Map));
}

struct Machine {
    words: Vec<u64>,
    pool: Vec<u64>,
    records: Vec<u64>,
    slots: Vec<u64>,
}

impl Machine {
    fn new() -> Machine {
        let mut machine = Machine {
            words: start(),
            pool: vec![7; 512 * 4],
            records: vec![7; 8],
            slots: vec![7; 24],
        };
        let Machine {
            pool,
            records,
            slots,
            ..
        } = &mut machine;
        assert_eq!(setup(&MAP, &[0], pool, records, slots, SIZES), Ok(()));
        machine
    }

    fn put(&mut self, step: Step) -> Result<Answer, Refusal> {
        event(
            &MAP,
            &mut self.words,
            &mut self.pool,
            &mut self.records,
            &mut self.slots,
            SIZES,
            step.of(0),
        )
    }
}

#[test]
fn a_run() {
    let mut machine = Machine::new();
    let access = Step::Access {
        address: 8,
        request: 0,
    };
    let steps = [
        (access, Answer::Again),
        (access, Answer::Address(425992)),
        (
            Step::Store {
                word: 1536,
                value: 20487,
            },
            Answer::Done,
        ),
        (access, Answer::Address(425992)),
        (Step::Invlpg { address: 8 }, Answer::Done),
        (access, Answer::Again),
        (access, Answer::Address(430088)),
        (Step::Extend { slot: 0 }, Answer::NoStep),
    ];
    for (step, answer) in steps {
        assert_eq!(machine.put(step), Ok(answer), "{step:?}");
    }
}

#[test]
fn a_broken_state_is_refused_and_stays() {
    let mut machine = Machine::new();
    machine.records[2] = 4;
    let before = machine.pool.clone();
    assert_eq!(machine.put(Step::Drop { slot: 0 }), Err(Refusal::State));
    assert_eq!(machine.pool, before);
}

#[test]
fn a_text() {
    let (mut map, mut cr3s, mut words) = ([7; 16], [7; 4], vec![7; 8192]);
    let (mut events, mut questions) = (vec![7; 1024], [7; 48]);
    let mut reads = |text: &[u8]| {
        read(
            text,
            &mut map,
            &mut cr3s,
            &mut words,
            &mut events,
            &mut questions,
        )
    };
    let counts = Counts {
        frames: 6,
        processors: 1,
        words: 4,
        events: 1,
        questions: 1,
    };
    assert_eq!(reads(TEXT), Ok(counts));
    let refused = |refusal, line| Err(TextRefusal { refusal, line });
    assert_eq!(reads(b"1 0\n1 0\n0\n"), refused(Refusal::Text, 4));
    assert_eq!(reads(b"1 0\n1 1\n"), refused(Refusal::Range, 2));
    assert_eq!(reads(&[b' '; 65537]), refused(Refusal::Size, 0));
    let mut output = [7; TEXT_OUTPUT];
    let too_short = Err(PrintRefusal::Call(Refusal::Size));
    let n = answers(TEXT, &mut output).unwrap();
    assert_eq!(&output[..n], b"Q 0 8 0 2\nA 4 425992\nA 5 430088\n");
    assert_eq!(answers(TEXT, &mut [0; 100]), too_short);
    let n = run(TEXT, &mut output).unwrap();
    assert_eq!(&output[..n], b"E 1 0 0\n");
    assert_eq!(run(TEXT, &mut [0; 16385]), too_short);
    for program in [answers, run] {
        let refused = program(b"1 0\n1 1\n", &mut output).unwrap_err();
        let text = TextRefusal {
            refusal: Refusal::Range,
            line: 2,
        };
        assert_eq!(refused, PrintRefusal::Text(text, 7));
        assert_eq!(&output[..7], b"R 11 2\n");
        assert_eq!(refused.to_string(), "line 2: number out of range (11)");
    }
}

#[test]
fn an_answer_buffer_of_another_length_is_refused_and_stays() {
    let mut machine = Machine::new();
    for length in [0, 2, 4] {
        let mut answer = vec![7; length];
        let Machine {
            words,
            pool,
            records,
            slots,
        } = &mut machine;
        let step = Step::Store { word: 0, value: 1 }.of(0);
        let refusal = numbers::event(&MAP, words, pool, records, slots, &mut answer, SIZES, step);
        assert_eq!(refusal, 1);
        assert!(answer.iter().all(|&number| number == 7));
        assert_eq!(machine.words[0], 4103);
    }
}
