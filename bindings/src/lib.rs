//! Flamecurl's proved library for Rust: slices in, enums out. Each function is one call of include/flamecurl.h, where the
//! lengths of the buffers and the meaning of their numbers are told; nothing is computed here.
//!
//! ```
//! let text = b"6 100 101 102 103 104 105  1 0  4 0 4103 512 8199 1024 12295 1536 16391  1 0 1 1536 20487  1 0 8 0";
//! let mut output = [0; flamecurl::TEXT_OUTPUT];
//! let n = flamecurl::answers(text, &mut output)?;
//! assert_eq!(&output[..n], b"Q 0 8 0 2\nA 4 425992\nA 5 430088\n");
//! # Ok::<(), flamecurl::PrintRefusal>(())
//! ```

use std::error::Error;
use std::fmt;

pub mod numbers;

pub const TEXT_OUTPUT: usize = 16384;

/// Why a call was refused, by document 01's numbers.
#[derive(Clone, Copy, PartialEq, Eq, PartialOrd, Ord, Hash, Debug)]
#[repr(u64)]
pub enum Refusal {
    /// a length, G, P, S or the number of events is out of range
    Size = 1,
    /// a map frame repeats, is 2^40 or more, or lies in the pool; or the pool passes 2^40
    Map = 2,
    /// the shadow state breaks a state rule
    State = 3,
    Processor = 4,
    Address = 5,
    Request = 6,
    Cr3 = 7,
    Word = 8,
    Slot = 9,
    /// text: bad byte, leading zero, 2^64 or more, a number missing or left over
    Text = 10,
    /// an unknown kind, or b not 0 where it must be; in text any number out of range
    Range = 11,
    /// too few tables in a share; proved never to come
    Tables = 12,
}

impl fmt::Display for Refusal {
    fn fmt(&self, f: &mut fmt::Formatter) -> fmt::Result {
        let why = match self {
            Refusal::Size => "a size is out of range",
            Refusal::Map => "a host frame repeats, is too large or lies in the pool",
            Refusal::State => "the shadow state breaks a state rule",
            Refusal::Processor => "no such processor",
            Refusal::Address => "address out of range",
            Refusal::Request => "no such request",
            Refusal::Cr3 => "CR3 names no guest frame",
            Refusal::Word => "no such word",
            Refusal::Slot => "no such slot",
            Refusal::Text => "not a number, or one missing or left over",
            Refusal::Range => "number out of range",
            Refusal::Tables => "too few tables",
        };
        write!(f, "{why} ({})", self.number())
    }
}

impl Error for Refusal {}

impl Refusal {
    pub const ALL: [Refusal; 12] = [
        Refusal::Size,
        Refusal::Map,
        Refusal::State,
        Refusal::Processor,
        Refusal::Address,
        Refusal::Request,
        Refusal::Cr3,
        Refusal::Word,
        Refusal::Slot,
        Refusal::Text,
        Refusal::Range,
        Refusal::Tables,
    ];

    pub fn number(self) -> u64 {
        self as u64
    }

    fn of(number: u64) -> Refusal {
        Refusal::ALL[number as usize - 1]
    }
}

fn judged(refusal: u64) -> Result<(), Refusal> {
    match refusal {
        0 => Ok(()),
        number => Err(Refusal::of(number)),
    }
}

#[derive(Clone, Copy, PartialEq, Eq, Debug)]
pub struct Question {
    pub processor: u64,
    pub address: u64,
    pub request: u64,
}

/// What an access may give.
#[derive(Clone, Copy, PartialEq, Eq, PartialOrd, Ord, Debug)]
pub enum Outcome {
    /// the address in the host frame that this guest frame is mapped to
    Frame(u64),
    /// a fault with this error code
    Fault(u64),
}

/// The pairs at the front of an outcome buffer.
pub fn outcomes(buffer: &[u64], count: usize) -> impl Iterator<Item = Outcome> + '_ {
    buffer
        .chunks_exact(2)
        .take(count)
        .map(|pair| match pair[0] {
            0 => Outcome::Frame(pair[1]),
            _ => Outcome::Fault(pair[1]),
        })
}

/// Every permitted outcome of a question: how many pairs stand in `outcomes`. The words then hold all stores.
///
/// ```
/// use flamecurl::{list, outcomes, Outcome, Question};
/// let mut words = vec![0; 512 * 6];
/// for (word, value) in [(0, 4103), (512, 8199), (1024, 12295), (1536, 16391)] {
///     words[word] = value;
/// }
/// let map = [100, 101, 102, 103, 104, 105];
/// let store = [0, 1, 1536, 20487];
/// let (mut work, mut pairs) = ([0; 40 * 6], [0; 2 * (6 + 3)]);
/// let question = Question { processor: 0, address: 8, request: 0 };
/// let count = list(&map, &mut words, &[0], &store, &mut work, &mut pairs, question)?;
/// let found: Vec<Outcome> = outcomes(&pairs, count).collect();
/// assert_eq!(found, [Outcome::Frame(4), Outcome::Frame(5)]);
/// # Ok::<(), flamecurl::Refusal>(())
/// ```
pub fn list(
    map: &[u64],
    words: &mut [u64],
    cr3s: &[u64],
    events: &[u64],
    work: &mut [u8],
    outcomes: &mut [u64],
    question: Question,
) -> Result<usize, Refusal> {
    let mut answer = [0; 2];
    numbers::list(
        map,
        words,
        cr3s,
        events,
        work,
        outcomes,
        &mut answer,
        question,
    );
    judged(answer[0]).map(|()| answer[1] as usize)
}

/// G, P, S and the host frame of table 0.
#[derive(Clone, Copy, PartialEq, Eq, Debug)]
pub struct Sizes {
    pub frames: u64,
    pub processors: u64,
    pub share: u64,
    pub base: u64,
}

/// An event as document 01's four numbers.
#[derive(Clone, Copy, PartialEq, Eq, Debug)]
pub struct Event {
    pub processor: u64,
    pub kind: u64,
    pub a: u64,
    pub b: u64,
}

/// What a processor does, in words.
#[derive(Clone, Copy, PartialEq, Eq, Debug)]
pub enum Step {
    Store { word: u64, value: u64 },
    Invlpg { address: u64 },
    WriteCr3 { frame: u64 },
    Access { address: u64, request: u64 },
    Begin { address: u64, slot: u64 },
    Extend { slot: u64 },
    Drop { slot: u64 },
}

impl Step {
    pub fn of(self, processor: u64) -> Event {
        let (kind, a, b) = match self {
            Step::Store { word, value } => (1, word, value),
            Step::Invlpg { address } => (2, address, 0),
            Step::WriteCr3 { frame } => (3, frame, 0),
            Step::Access { address, request } => (4, address, request),
            Step::Begin { address, slot } => (5, address, slot),
            Step::Extend { slot } => (6, slot, 0),
            Step::Drop { slot } => (7, slot, 0),
        };
        Event {
            processor,
            kind,
            a,
            b,
        }
    }
}

/// What the machine answers to an event.
#[derive(Clone, Copy, PartialEq, Eq, Debug)]
pub enum Answer {
    Done,
    /// the host address
    Address(u64),
    /// the error code
    Fault(u64),
    /// the shadow tables were filled: put the access again
    Again,
    NoStep,
}

/// A fresh machine in these buffers; what they held is not read.
pub fn setup(
    map: &[u64],
    cr3s: &[u64],
    pool: &mut [u64],
    records: &mut [u64],
    slots: &mut [u64],
    sizes: Sizes,
) -> Result<(), Refusal> {
    judged(numbers::setup(map, cr3s, pool, records, slots, sizes))
}

/// One event of the machine.
///
/// ```
/// use flamecurl::{event, setup, Answer, Refusal, Sizes, Step};
/// let map = [100, 101, 102, 103];
/// let sizes = Sizes { frames: 4, processors: 1, share: 4, base: 1 << 20 };
/// let mut words = vec![0; 512 * 4];
/// let (mut pool, mut records, mut slots) = (vec![0; 512 * 4], [0; 2 * 4], [0; 24]);
/// setup(&map, &[0], &mut pool, &mut records, &mut slots, sizes)?;
/// let mut put = |step: Step| event(&map, &mut words, &mut pool, &mut records, &mut slots, sizes, step.of(0));
/// assert_eq!(put(Step::Access { address: 8, request: 0 }), Ok(Answer::Fault(0)));
/// assert_eq!(put(Step::Drop { slot: 8 }), Err(Refusal::Slot));
/// assert_eq!(Refusal::Slot.to_string(), "no such slot (9)");
/// # Ok::<(), Refusal>(())
/// ```
pub fn event(
    map: &[u64],
    words: &mut [u64],
    pool: &mut [u64],
    records: &mut [u64],
    slots: &mut [u64],
    sizes: Sizes,
    event: Event,
) -> Result<Answer, Refusal> {
    let mut answer = [0; 3];
    numbers::event(map, words, pool, records, slots, &mut answer, sizes, event);
    let [refusal, kind, value] = answer;
    judged(refusal)?;
    Ok(match kind {
        0 => Answer::Done,
        1 => Answer::Address(value),
        2 => Answer::Fault(value),
        3 => Answer::Again,
        _ => Answer::NoStep,
    })
}

/// How much stands at the front of each buffer after a text was read.
#[derive(Clone, Copy, PartialEq, Eq, Debug)]
pub struct Counts {
    pub frames: usize,
    pub processors: usize,
    pub words: usize,
    pub events: usize,
    pub questions: usize,
}

/// A refused text: why, and the line of the first place at fault (0 if a length is wrong).
#[derive(Clone, Copy, PartialEq, Eq, Debug)]
pub struct TextRefusal {
    pub refusal: Refusal,
    pub line: u64,
}

impl fmt::Display for TextRefusal {
    fn fmt(&self, f: &mut fmt::Formatter) -> fmt::Result {
        write!(f, "line {}: {}", self.line, self.refusal)
    }
}

impl Error for TextRefusal {}

/// A puzzle text into buffers of 16, 4, 8,192, 1,024 and 48 numbers.
///
/// ```
/// let (mut map, mut cr3s, mut words) = ([0; 16], [0; 4], vec![0; 8192]);
/// let (mut events, mut questions) = (vec![0; 1024], [0; 48]);
/// let mut read = |text| flamecurl::read(text, &mut map, &mut cr3s, &mut words, &mut events, &mut questions);
/// assert_eq!(read(b"1 100  1 0  0  0  1 0 8 0")?.frames, 1);
/// assert_eq!(read(b"17").unwrap_err().to_string(), "line 1: number out of range (11)");
/// # Ok::<(), flamecurl::TextRefusal>(())
/// ```
pub fn read(
    text: &[u8],
    map: &mut [u64],
    cr3s: &mut [u64],
    words: &mut [u64],
    events: &mut [u64],
    questions: &mut [u64],
) -> Result<Counts, TextRefusal> {
    let mut answer = [0; 7];
    numbers::read(text, map, cr3s, words, events, questions, &mut answer);
    let [refusal, line, counts @ ..] = answer;
    judged(refusal).map_err(|refusal| TextRefusal { refusal, line })?;
    let [frames, processors, words, events, questions] = counts.map(|count| count as usize);
    Ok(Counts {
        frames,
        processors,
        words,
        events,
        questions,
    })
}

/// Why nothing was answered: the text, or the output buffer.
#[derive(Clone, Copy, PartialEq, Eq, Debug)]
pub enum PrintRefusal {
    /// the text; the line `R number line` stands in the output, in this many bytes
    Text(TextRefusal, usize),
    /// the call; the output is as it was
    Call(Refusal),
}

impl fmt::Display for PrintRefusal {
    fn fmt(&self, f: &mut fmt::Formatter) -> fmt::Result {
        match self {
            PrintRefusal::Text(refusal, _) => refusal.fmt(f),
            PrintRefusal::Call(refusal) => refusal.fmt(f),
        }
    }
}

impl Error for PrintRefusal {}

/// The number of bytes that a text's call wrote.
fn written(answer: [u64; 4]) -> Result<usize, PrintRefusal> {
    let [refusal, bytes, number, line] = answer;
    judged(refusal).map_err(PrintRefusal::Call)?;
    let bytes = bytes as usize;
    judged(number)
        .map(|()| bytes)
        .map_err(|refusal| PrintRefusal::Text(TextRefusal { refusal, line }, bytes))
}

/// What the program `answers` prints for a text, into `TEXT_OUTPUT` bytes: how many were written.
pub fn answers(text: &[u8], output: &mut [u8]) -> Result<usize, PrintRefusal> {
    let mut answer = [0; 4];
    numbers::answers(text, output, &mut answer);
    written(answer)
}

/// What the program `run` prints for a text, into `TEXT_OUTPUT` bytes: how many were written.
///
/// ```
/// use flamecurl::PrintRefusal;
/// let mut output = [0; flamecurl::TEXT_OUTPUT];
/// let n = flamecurl::run(b"1 100  1 0  0  1 0 4 8 0  1 0 8 0", &mut output)?;
/// assert_eq!(&output[..n], b"E 1 2 0\n");
/// match flamecurl::run(b"17", &mut output) {
///     Err(PrintRefusal::Text(refused, n)) => assert_eq!((refused.line, &output[..n]), (1, &b"R 11 1\n"[..])),
///     other => panic!("{other:?}"),
/// }
/// # Ok::<(), PrintRefusal>(())
/// ```
pub fn run(text: &[u8], output: &mut [u8]) -> Result<usize, PrintRefusal> {
    let mut answer = [0; 4];
    numbers::run(text, output, &mut answer);
    written(answer)
}
