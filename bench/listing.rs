//! A book of 1,000 rules, tested once and listed block by block, again and again: what is measured of the rule book.

use crate::{library, reference};

const RULES: u32 = 1_000;

/// Lists the book `rounds` times; gives how many words its blocks have.
pub fn words(rounds: u64) -> u64 {
    let patterns: Vec<Vec<i32>> = (0..RULES as i32).map(|k| vec![5, 1, 0, 5, 3, 0, k, 0]).collect();
    let book = reference::book::bound(&[3, 1], &patterns);
    let mut words = [0; 124];
    for _ in 0..rounds {
        assert_eq!(library::book_check(&book, RULES), [0, u64::from(RULES), u64::from(RULES)]);
        for k in 0..RULES {
            assert_eq!(library::book_block(&book, k, &mut words), [0, u64::from(k) + 1, 1, 1, 2, 8]);
            assert_eq!(words[2..10], patterns[k as usize][..]);
        }
    }
    book.len() as u64 / 2
}
