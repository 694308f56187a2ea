//! Runs at random: the same words opened by the plain program and by what is tested, then advanced by the same portions; every number and every word of
//! the room is looked at after each.

use crate::inputs::{self, Random};
use crate::scripts::Picks;
use crate::{compare, open_reference, picked_reference, Services};

/// A search of more steps than these is not run to its end.
const LONGEST: u32 = 5_000;

/// Openings and advances, how many differ, and how often each answer came.
pub struct Tally {
    pub runs: u64,
    pub advances: u64,
    pub differ: u64,
    pub answers: [u64; 23],
}

/// A matcher, a pattern and units; now and then one of them damaged.
fn words(r: &mut Random) -> [Vec<i32>; 3] {
    let matcher = inputs::matcher(r);
    let mut words = [inputs::pattern(r, &matcher), inputs::target(r, &matcher)];
    if r.once_in(8) {
        let which = r.below(2) as usize;
        inputs::damage(r, &mut words[which]);
    }
    let [pattern, target] = words;
    [matcher, pattern, target]
}

/// A room, lent whole or now and then with a word less.
fn lent<'a>(room: &'a mut [i32], less: bool) -> &'a mut [i32] {
    let end = room.len() - usize::from(less && !room.is_empty());
    &mut room[..end]
}

impl Tally {
    fn one(&mut self, r: &mut Random, services: &Services, picks: Picks) {
        let words = words(r);
        let given = [&words[0][..], &words[1][..], &words[2][..]];
        let size = r.pick(&[0, 1, 7, 40, 4096]) as usize;
        let (mut ours, told) = open_reference(picks, given, size as u32).unwrap();
        let (mut theirs, answered) = (services.open)(picks, given, size as u32).unwrap();
        let short = picked_reference(picks, given, LONGEST, &mut vec![0; size]).map_or(false, |whole| whole[0] != 7);
        let mut rooms = [vec![-7; size], vec![-7; size]];
        let mut same = told == answered;
        self.runs += 1;
        for _ in 0..1 + r.below(6) {
            let (steps, less) = (portion(r, short), r.once_in(20));
            let [one, other] = &mut rooms;
            let numbers = ours(steps, lent(one, less));
            same = same && numbers == theirs(steps, lent(other, less)) && one == other;
            self.advances += 1;
            self.answers[numbers[0] as usize] += 1;
        }
        self.differ += u64::from(!same);
        if !same && self.differ <= 5 {
            println!("differs: a run {picks:?} {words:?} in {size} words");
        }
    }
}

/// A portion of steps: the largest there is only for a search that is short.
fn portion(r: &mut Random, short: bool) -> u32 {
    match r.below(6) {
        0 => 0,
        1 => 1,
        2 if short => u32::MAX,
        _ => r.below(60) as u32,
    }
}

/// None, where there are no runs.
pub fn random(services: &Services, runs: u64, seed: u64) -> Option<Tally> {
    let opens = |picks| (services.open)(picks, [&[1], &[0], &[0, 7]], 0).is_some();
    let mut tally = Tally { runs: 0, advances: 0, differ: 0, answers: [0; 23] };
    let mut r = Random(seed);
    while tally.runs < runs {
        let form = if opens([2, 1, 1, 0, 0]) { compare::one_or_two(&mut r) } else { 1 };
        let dialect = if opens([1, 1, 2, 0, 0]) { compare::one_or_two(&mut r) } else { 1 };
        let picks = [form, 1, dialect, 0, 0];
        if !opens(picks) {
            return None;
        }
        tally.one(&mut r, services, picks);
    }
    Some(tally)
}
