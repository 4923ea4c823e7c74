//! The reader of puzzle text: a one-pass tokenizer that knows its line, and a
//! recursive descent over the sections. Each number is judged as soon as it is
//! read, so the first place decides by itself.

use crate::rules::*;

pub const TEXT_LIMIT: usize = 65_536;
pub const GUEST_FRAMES_MAX: u64 = 16;
pub const PROCESSORS_MAX: u64 = 4;
pub const EVENTS_MAX: u64 = 256;
pub const QUESTIONS_MAX: u64 = 16;
pub const POOL_BASE: u64 = 1 << 20;
pub const SHARE: u64 = 4;

#[derive(Clone, PartialEq, Eq, Debug)]
pub struct Puzzle {
    pub map: Vec<u64>,
    pub cr3s: Vec<u64>,
    pub words: Vec<(u64, u64)>,
    pub events: Vec<Event>,
    pub questions: Vec<Question>,
}

impl Puzzle {
    pub fn guest_frames(&self) -> u64 {
        self.map.len() as u64
    }

    /// "Other words are 0."
    pub fn start_words(&self) -> Vec<u64> {
        let mut words = vec![0; (WORDS_PER_FRAME * self.guest_frames()) as usize];
        for &(word, value) in &self.words {
            words[word as usize] = value;
        }
        words
    }
}

#[derive(Clone, Copy, PartialEq, Eq, Debug)]
pub struct Refused {
    pub number: u64,
    pub line: u64,
}

pub fn read(text: &[u8]) -> Result<Puzzle, Refused> {
    if text.len() > TEXT_LIMIT {
        return Err(Refused { number: 1, line: 0 });
    }
    let mut reader = Reader {
        text,
        place: 0,
        line: 1,
    };
    let puzzle = reader.puzzle()?;
    reader.nothing_left()?;
    Ok(puzzle)
}

struct Reader<'a> {
    text: &'a [u8],
    place: usize,
    line: u64,
}

/// A number and the line of its first byte.
struct Number {
    value: u64,
    line: u64,
}

impl Number {
    fn judged(self, good: bool) -> Result<u64, Refused> {
        if good {
            Ok(self.value)
        } else {
            Err(Refused {
                number: 11,
                line: self.line,
            })
        }
    }

    fn below(self, limit: u64) -> Result<u64, Refused> {
        let good = self.value < limit;
        self.judged(good)
    }
}

/// The tokenizer.
impl Reader<'_> {
    fn byte(&self) -> Option<u8> {
        self.text.get(self.place).copied()
    }

    fn skip_blanks(&mut self) {
        loop {
            match self.byte() {
                Some(b' ') => self.place += 1,
                Some(b'\n') => {
                    self.place += 1;
                    self.line += 1;
                }
                _ => return,
            }
        }
    }

    fn refused_here<T>(&self) -> Result<T, Refused> {
        Err(Refused {
            number: 10,
            line: self.line,
        })
    }

    fn number(&mut self) -> Result<Number, Refused> {
        self.skip_blanks();
        let Some(first @ b'0'..=b'9') = self.byte() else {
            return self.refused_here();
        };
        let start = self.place;
        let mut value = Some(0u64);
        while let Some(digit @ b'0'..=b'9') = self.byte() {
            value = value
                .and_then(|v| v.checked_mul(10))
                .and_then(|v| v.checked_add(u64::from(digit - b'0')));
            self.place += 1;
        }
        let leading_zero = first == b'0' && self.place > start + 1;
        match value {
            Some(value) if !leading_zero => Ok(Number {
                value,
                line: self.line,
            }),
            _ => self.refused_here(),
        }
    }

    fn nothing_left(&mut self) -> Result<(), Refused> {
        self.skip_blanks();
        match self.byte() {
            None => Ok(()),
            Some(_) => self.refused_here(),
        }
    }
}

/// The descent over the sections.
impl Reader<'_> {
    fn puzzle(&mut self) -> Result<Puzzle, Refused> {
        let map = self.map()?;
        let guest_frames = map.len() as u64;
        let cr3s = self.cr3s(guest_frames)?;
        let processors = cr3s.len() as u64;
        let words = self.words(guest_frames)?;
        let events = self.events(guest_frames, processors)?;
        let questions = self.questions(processors)?;
        Ok(Puzzle {
            map,
            cr3s,
            words,
            events,
            questions,
        })
    }

    fn count(&mut self, least: u64, most: u64) -> Result<u64, Refused> {
        let count = self.number()?;
        let good = (least..=most).contains(&count.value);
        count.judged(good)
    }

    fn map(&mut self) -> Result<Vec<u64>, Refused> {
        let count = self.count(1, GUEST_FRAMES_MAX)?;
        let mut map = Vec::new();
        for _ in 0..count {
            let frame = self.number()?;
            let good = frame.value < POOL_BASE && !map.contains(&frame.value);
            map.push(frame.judged(good)?);
        }
        Ok(map)
    }

    fn cr3s(&mut self, guest_frames: u64) -> Result<Vec<u64>, Refused> {
        let count = self.count(1, PROCESSORS_MAX)?;
        (0..count)
            .map(|_| self.number()?.below(guest_frames))
            .collect()
    }

    fn words(&mut self, guest_frames: u64) -> Result<Vec<(u64, u64)>, Refused> {
        let limit = WORDS_PER_FRAME * guest_frames;
        let count = self.count(0, limit)?;
        let mut words = Vec::new();
        let mut least = 0;
        for _ in 0..count {
            let word = self.number()?;
            let good = (least..limit).contains(&word.value);
            let word = word.judged(good)?;
            let value = self.number()?.value;
            words.push((word, value));
            least = word + 1;
        }
        Ok(words)
    }

    fn events(&mut self, guest_frames: u64, processors: u64) -> Result<Vec<Event>, Refused> {
        let count = self.count(0, EVENTS_MAX)?;
        (0..count)
            .map(|_| self.event(guest_frames, processors))
            .collect()
    }

    fn event(&mut self, guest_frames: u64, processors: u64) -> Result<Event, Refused> {
        let processor = self.number()?.below(processors)?;
        let kind = self.number()?;
        let good = (STORE..=DROP).contains(&kind.value);
        let kind = kind.judged(good)?;
        let (a, b) = match kind {
            STORE => (
                self.number()?.below(WORDS_PER_FRAME * guest_frames)?,
                self.number()?.value,
            ),
            INVLPG => (self.address()?, self.zero()?),
            CR3_WRITE => (self.number()?.below(guest_frames)?, self.zero()?),
            ACCESS => (self.address()?, self.request()?),
            BEGIN => (self.address()?, self.slot()?),
            _ => (self.slot()?, self.zero()?),
        };
        Ok(Event {
            processor,
            kind,
            a,
            b,
        })
    }

    fn questions(&mut self, processors: u64) -> Result<Vec<Question>, Refused> {
        let count = self.count(1, QUESTIONS_MAX)?;
        (0..count).map(|_| self.question(processors)).collect()
    }

    fn question(&mut self, processors: u64) -> Result<Question, Refused> {
        Ok(Question {
            processor: self.number()?.below(processors)?,
            address: self.address()?,
            request: self.request()?,
        })
    }

    fn address(&mut self) -> Result<u64, Refused> {
        let address = self.number()?;
        let good = address_allowed(address.value);
        address.judged(good)
    }

    fn request(&mut self) -> Result<u64, Refused> {
        self.number()?.below(REQUESTS.len() as u64)
    }

    fn slot(&mut self) -> Result<u64, Refused> {
        self.number()?.below(SLOTS as u64)
    }

    fn zero(&mut self) -> Result<u64, Refused> {
        self.number()?.below(1)
    }
}
