//! Section 9 of document 01: the trial program as a function from its input to its output.

use crate::reference::Matched;
use crate::scripts::{Picks, PLAIN};
use crate::Services;

/// An optional minus and 1 to 10 digits, in a range.
fn number(piece: &[u8], least: i64, most: i64) -> Option<i64> {
    let (digits, sign) = match piece {
        [b'-', digits @ ..] => (digits, -1),
        digits => (digits, 1),
    };
    if digits.is_empty() || digits.len() > 10 || !digits.iter().all(u8::is_ascii_digit) {
        return None;
    }
    let value = sign * digits.iter().fold(0, |n, &digit| n * 10 + i64::from(digit - b'0'));
    if (least..=most).contains(&value) {
        Some(value)
    } else {
        None
    }
}

pub fn words(line: &[u8]) -> Option<Vec<i32>> {
    if line.is_empty() {
        return Some(Vec::new());
    }
    let word = |piece| number(piece, i32::MIN.into(), i32::MAX.into()).map(|n| n as i32);
    let words: Vec<i32> = line.split(|&b| b == b' ').map(word).collect::<Option<_>>()?;
    if words.len() > 2000 {
        return None;
    }
    Some(words)
}

/// One question to match.
pub struct Question {
    pub matcher: Vec<i32>,
    pub pattern: Vec<i32>,
    pub target: Vec<i32>,
    pub budget: u32,
    pub room: usize,
}

pub fn question(input: &[u8]) -> Option<Question> {
    if input.len() > 32_768 {
        return None;
    }
    let lines: Vec<&[u8]> = input.split(|&b| b == b'\n').collect();
    let (matcher, pattern, target, last) = match lines[..] {
        [matcher, pattern, target, last, []] => (words(matcher)?, words(pattern)?, words(target)?, last),
        _ => return None,
    };
    let pieces: Vec<&[u8]> = last.split(|&b| b == b' ').collect();
    let (budget, room) = match pieces[..] {
        [budget, room] => (number(budget, 0, u32::MAX.into())?, number(room, 0, 4096)?),
        _ => return None,
    };
    Some(Question { matcher, pattern, target, budget: budget as u32, room: room as usize })
}

/// How many words the next `values` values have.
fn extent(words: &[i32], values: usize) -> usize {
    let (mut at, mut left) = (0, values);
    while left > 0 {
        left -= 1;
        if words[at] > 0 {
            left += words[at + 1] as usize;
        }
        at += 2;
    }
    at
}

fn variables(pattern: &[i32]) -> usize {
    let (mut at, mut count) = (0, 0);
    while at < pattern.len() {
        at += match pattern[at] {
            1 => {
                count += 1;
                2
            }
            2 | 7 => 2,
            3 => 3,
            _ => 1,
        };
    }
    count
}

fn line<T: ToString>(numbers: &[T]) -> String {
    let numbers: Vec<String> = numbers.iter().map(T::to_string).collect();
    numbers.join(" ") + "\n"
}

/// The six numbers, and the rows, of a match in row form 1.
pub fn answered(services: &Services, picks: Picks, q: &Question) -> (Matched, Vec<Vec<i32>>) {
    let mut room = vec![0; q.room];
    let numbers = match picks {
        PLAIN => (services.match_words)(&q.matcher, &q.pattern, &q.target, q.budget, &mut room),
        _ => (services.picked)(picks, [&q.matcher, &q.pattern, &q.target], q.budget, &mut room).unwrap(),
    };
    let mut rest = &room[..numbers[4] as usize];
    let each = if numbers[2] == 0 { 0 } else { variables(&q.pattern) };
    let mut rows = Vec::new();
    for _ in 0..numbers[2] {
        let (row, others) = rest.split_at(extent(rest, each));
        rows.push(row.to_vec());
        rest = others;
    }
    (numbers, rows)
}

pub fn printed(services: &Services, input: &[u8]) -> String {
    match question(input) {
        None => "unreadable\n".to_string(),
        Some(q) => {
            let (numbers, rows) = answered(services, PLAIN, &q);
            line(&numbers) + &rows.iter().map(|row| line(row)).collect::<String>()
        }
    }
}
