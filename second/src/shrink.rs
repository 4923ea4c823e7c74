//! Makes a text on which two programs differ smaller while they still differ:
//! drops events, words, questions, then lines, then bytes.

use crate::gen::{plain, tokens};
use crate::puzzle::{self, Puzzle};

/// A test that says whether a text still shows the difference.
pub type Differs<'a> = dyn FnMut(&[u8]) -> bool + 'a;

pub fn shrink(text: &[u8], differs: &mut Differs) -> Vec<u8> {
    let mut text = text.to_vec();
    if let Ok(puzzle) = puzzle::read(&text) {
        if differs(&plain(&tokens(&puzzle))) {
            text = plain(&tokens(&shrink_puzzle(puzzle, differs)));
        }
    }
    let lines: Vec<Vec<u8>> = text
        .split_inclusive(|&byte| byte == b'\n')
        .map(<[u8]>::to_vec)
        .collect();
    let text = drop_runs(lines, &mut |lines| differs(&lines.concat())).concat();
    if text.len() > 1500 {
        return text;
    }
    drop_runs(text, &mut |bytes| differs(bytes))
}

fn shrink_puzzle(mut puzzle: Puzzle, differs: &mut Differs) -> Puzzle {
    let rest = puzzle.clone();
    puzzle.events = drop_runs(rest.events.clone(), &mut |events| {
        differs(&plain(&tokens(&Puzzle {
            events: events.to_vec(),
            ..rest.clone()
        })))
    });
    let rest = puzzle.clone();
    puzzle.words = drop_runs(rest.words.clone(), &mut |words| {
        differs(&plain(&tokens(&Puzzle {
            words: words.to_vec(),
            ..rest.clone()
        })))
    });
    let rest = puzzle.clone();
    puzzle.questions = drop_runs(rest.questions.clone(), &mut |questions| {
        differs(&plain(&tokens(&Puzzle {
            questions: questions.to_vec(),
            ..rest.clone()
        })))
    });
    puzzle
}

/// Drops runs of items, long ones first, as long as the rest still will do.
pub fn drop_runs<T: Clone>(mut items: Vec<T>, will_do: &mut dyn FnMut(&[T]) -> bool) -> Vec<T> {
    let mut run = items.len().div_ceil(2);
    while run > 0 {
        let mut at = 0;
        while at < items.len() {
            let end = (at + run).min(items.len());
            let rest = [&items[..at], &items[end..]].concat();
            if will_do(&rest) {
                items = rest;
            } else {
                at = end;
            }
        }
        run /= 2;
    }
    items
}
