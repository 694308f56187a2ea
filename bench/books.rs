//! Rule books at random: the same calls on two books, one by the plain program and one by what is tested; every number, word and byte is looked at.

use crate::inputs::{self, Random};
use crate::reference::book as plain;
use crate::scripts::Book;

/// Calls on books, how many differ, and how often each answer came.
pub struct Tally {
    pub calls: u64,
    pub differ: u64,
    pub answers: [u64; 25],
}

#[derive(Clone)]
struct Lent {
    bytes: Vec<u8>,
    used: u32,
}

/// Some blocks and a part of one, with anything in them; no block is in use.
fn opened(r: &mut Random) -> Lent {
    let len = plain::BLOCK * r.below(6) as usize + r.below(2) as usize * r.below(512) as usize;
    Lent { bytes: (0..len).map(|_| r.next() as u8).collect(), used: 0 }
}

fn badge(r: &mut Random) -> u16 {
    match r.below(10) {
        0 => 65535,
        _ => r.below(6) as u16,
    }
}

/// A matcher and a pattern: fitting, damaged, or of about 124 words.
fn rule(r: &mut Random) -> [Vec<i32>; 2] {
    if r.once_in(8) {
        let mut long: Vec<i32> = [5, 0].repeat(59 + r.below(3) as usize);
        long.extend([0; 2].iter().take(1 + usize::from(r.once_in(4))));
        return [vec![3, 1], long];
    }
    let mut matcher = inputs::matcher(r);
    let mut pattern = inputs::pattern(r, &matcher);
    match r.below(10) {
        0 => inputs::damage(r, &mut matcher),
        1 => inputs::damage(r, &mut pattern),
        _ => (),
    }
    [matcher, pattern]
}

/// Damage: another number of blocks in use; or in one block words changed or exchanged, with its check or made good again.
fn damage(r: &mut Random, lent: &mut Lent) {
    if lent.used == 0 || r.once_in(8) {
        lent.used = r.below(9) as u32;
        return;
    }
    let at = r.below(lent.used.into()) as usize;
    let mut words = match plain::block(&lent.bytes, at) {
        Some(words) => words,
        None => return,
    };
    let [i, j] = [(); 2].map(|_| if r.once_in(2) { r.below(16) } else { r.below(256) } as usize);
    match r.below(4) {
        0 => words[i] ^= 1 << r.below(16),
        1 => words[i] = r.pick(&[0, 1, 2, 3, 124, 125, 32768, 32769, 65535]) as u16,
        2 => words[2] = badge(r),
        _ => words.swap(i, j),
    }
    if r.once_in(2) {
        plain::seal(&mut words);
    }
    plain::store(&mut lent.bytes, at, &words);
}

/// One call on both books: whether they agree, and the answer.
fn call(r: &mut Random, book: &Book, ours: &mut Lent, theirs: &mut Lent) -> (bool, u64) {
    let (used, badge) = (ours.used, badge(r));
    match r.below(8) {
        0..=3 => {
            let [matcher, pattern] = rule(r);
            let rule = [&matcher[..], &pattern[..]];
            let (version, dialect) = (1 + r.below(20) as u16 / 9, 1 + r.below(20) as u32 / 9);
            let a = plain::add(&mut ours.bytes, used, version, badge, dialect, rule);
            let b = (book.add)(&mut theirs.bytes, used, version, badge, dialect, rule);
            ours.used = a[2] as u32;
            (a == b, a[0])
        }
        4 => {
            let a = plain::withdraw(&mut ours.bytes, used, badge);
            (a == (book.withdraw)(&mut theirs.bytes, used, badge), a[0])
        }
        5 => {
            let a = plain::total(&ours.bytes, used);
            (a == (book.total)(&theirs.bytes, used), a[0])
        }
        _ => {
            let mut words = [[-77; 130]; 2];
            let [one, other] = &mut words;
            let a = plain::read(&ours.bytes, used, badge, one);
            let b = (book.read)(&theirs.bytes, used, badge, other);
            (a == b && words[0] == words[1], a[0])
        }
    }
}

pub fn random(book: &Book, calls: u64, seed: u64) -> Tally {
    let mut tally = Tally { calls, differ: 0, answers: [0; 25] };
    let mut r = Random(seed);
    let mut lent = opened(&mut r);
    for _ in 0..calls {
        if r.once_in(40) {
            lent = opened(&mut r);
        }
        let mut ours = lent.clone();
        let damaged = r.once_in(4);
        if damaged {
            damage(&mut r, &mut ours);
        }
        let mut theirs = ours.clone();
        let (same, answer) = call(&mut r, book, &mut ours, &mut theirs);
        tally.answers[answer as usize] += 1;
        tally.differ += u64::from(!same || ours.bytes != theirs.bytes);
        if !damaged {
            lent = ours;
        }
    }
    tally
}
