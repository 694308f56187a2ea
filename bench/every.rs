//! The comparison at every budget and around every room: random rules over a multiset or a list of integers or tuples, small enough to be run with each
//! budget up to their steps, and with rooms at and around each row's end; half of them by rounds, a third of them in
//! dialect 2.

use crate::inputs::Random;
use crate::scripts::{Picks, BY_ROUNDS};
use crate::{Services, IN_DIALECT_2};

/// The steps and the words of room that a rule is looked at with.
const STEPS: u32 = 700;
const ROOM: usize = 8_192;

pub struct Tally {
    pub rules: u64,
    pub runs: u64,
    pub differ: u64,
}

fn integer(r: &mut Random) -> i32 {
    if r.once_in(15) {
        r.pick(&[i32::MIN, i32::MAX, -1])
    } else {
        r.below(3) as i32
    }
}

/// A rule under construction. `closed` inside an or or a not, where no variable may stand; `integers` are the variables bound to one.
struct Rule {
    parts: u64,
    pattern: Vec<i32>,
    variables: i32,
    integers: Vec<i32>,
}

impl Rule {
    fn variable(&mut self) {
        self.pattern.extend([1, self.variables]);
        self.variables += 1;
    }

    fn number(&mut self, r: &mut Random, closed: bool) {
        match r.below(10) {
            0 | 1 => self.pattern.push(0),
            2..=4 if !closed => {
                self.integers.push(self.variables);
                self.variable();
            }
            5 => self.pattern.extend([2, integer(r)]),
            6 if r.once_in(3) => self.pattern.extend([10, 2, integer(r)]),
            _ if self.integers.is_empty() => self.pattern.push(0),
            _ => {
                let named = self.integers[r.below(self.integers.len() as u64) as usize];
                let plus = if r.once_in(3) { integer(r) } else { 0 };
                self.pattern.extend([3, named, plus]);
            }
        }
    }

    fn first(&mut self, r: &mut Random, closed: bool) {
        if self.parts == 1 {
            return self.number(r, closed);
        }
        if r.once_in(6) {
            return if closed { self.pattern.push(0) } else { self.variable() };
        }
        self.pattern.extend([7, self.parts as i32]);
        (0..self.parts).for_each(|_| self.number(r, closed));
    }

    fn rest(&mut self, r: &mut Random, depth: u64, closed: bool) {
        if depth == 0 || r.once_in(8) {
            return match r.below(8) {
                0 if !closed => self.variable(),
                1 => self.pattern.push(4),
                _ => self.pattern.push(0),
            };
        }
        match r.below(12) {
            0 => {
                self.pattern.push(10);
                self.rest(r, depth - 1, true);
            }
            tag @ (1 | 2) => {
                self.pattern.push(if tag == 1 { 9 } else { 8 });
                self.rest(r, depth - 1, closed || tag == 1);
                self.rest(r, depth - 1, closed || tag == 1);
            }
            _ => {
                self.pattern.push(5);
                self.first(r, closed);
                self.rest(r, depth - 1, closed);
            }
        }
    }
}

fn tuple(tag: i32, parts: u64, part: impl FnMut() -> Vec<i32>) -> Vec<i32> {
    let words = std::iter::repeat_with(part).take(parts as usize).flatten();
    if parts == 1 {
        return words.collect();
    }
    [tag, parts as i32].into_iter().chain(words).collect()
}

/// Matcher, pattern and target.
fn words(r: &mut Random) -> [Vec<i32>; 3] {
    let parts = 1 + r.pick(&[0, 0, 1, 1, 2, 3]) as u64;
    let matcher = [vec![r.pick(&[3, 3, 3, 2])], tuple(4, parts, || vec![1])].concat();
    let depth = 1 + r.below(4);
    let mut rule = Rule { parts, pattern: Vec::new(), variables: 0, integers: Vec::new() };
    rule.rest(r, depth, false);
    let units = r.below(if depth > 3 { 5 } else { 7 });
    let mut target = vec![1, units as i32];
    for _ in 0..units {
        target.extend(tuple(2, parts, || vec![0, integer(r)]));
    }
    [matcher, rule.pattern, target]
}

/// The budgets and rooms that a rule is run with, which has so many rows, steps and words.
fn cuts(r: &mut Random, [rows, steps, words]: [u64; 3]) -> Vec<(u32, usize)> {
    let mut all: Vec<(u32, usize)> = (0..=steps as u32 + 1).map(|budget| (budget, ROOM)).collect();
    let row = words.checked_div(rows).unwrap_or(0);
    all.extend((0..=rows.min(60)).flat_map(|k| [k * row, k * row + 1]).map(|room| (STEPS, room as usize)));
    all.extend([words, words.saturating_sub(1)].map(|room| (STEPS, room as usize)));
    all.extend((0..10).map(|_| (r.below(steps + 2) as u32, (words + 200).saturating_sub(r.below(400)) as usize)));
    all
}

pub fn random(services: &Services, rules: u64, seed: u64) -> Tally {
    let mut tally = Tally { rules: 0, runs: 0, differ: 0 };
    let mut r = Random(seed);
    while tally.rules < rules {
        tally.rules += 1;
        let [matcher, pattern, target] = words(&mut r);
        let words = [&matcher[..], &pattern, &target];
        let mut picks: Picks = [1 + r.below(2) as u32, 1, 1, 0, 0];
        if !services.takes(picks) {
            picks[0] = 1;
        }
        if services.takes(BY_ROUNDS) && r.once_in(2) {
            [picks[1], picks[3]] = [2, r.pick(&[6, 20, 257]) as u32];
        }
        if services.takes(IN_DIALECT_2) && r.once_in(3) {
            picks[2] = 2;
        }
        let plain = |budget, room: &mut [i32]| crate::picked_reference(picks, words, budget, room).unwrap();
        let whole = plain(STEPS, &mut [0; ROOM]);
        for (budget, room) in cuts(&mut r, [whole[2], whole[3], whole[4]]) {
            let held: Vec<i32> = (0..room as i32 + 8).map(|i| 77 * i + 5).collect();
            let (mut ours, mut theirs) = (held.clone(), held);
            let here = plain(budget, &mut ours[..room]);
            let there = (services.picked)(picks, words, budget, &mut theirs[..room]).unwrap();
            tally.runs += 1;
            if here != there || ours != theirs {
                tally.differ += 1;
                if tally.differ <= 5 {
                    println!("differs: {picks:?} {matcher:?} {pattern:?} {target:?} {budget} {room}: {here:?} {there:?}");
                }
            }
        }
    }
    tally
}
