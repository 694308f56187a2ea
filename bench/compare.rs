//! The comparison: the same random inputs to two services, and every number and every word of the room looked at.

use crate::inputs::{self, Random};
use crate::scripts::{Picks, PLAIN};
use crate::{reference, Services};

/// Words around the room that nothing may touch.
const GUARD: usize = 8;

pub struct Tally {
    pub inputs: u64,
    pub differ: u64,
    pub answers: [u64; 23],
    pub tuples: [u64; 23],
    pub choices: [u64; 23],
    pub dialects: [u64; 23],
    pub rounds: [u64; 23],
    pub causes: [u64; 8],
}

struct Seen<T> {
    numbers: T,
    room: Vec<i32>,
}

fn in_a_room(f: impl Fn(&mut [i32]) -> reference::Matched, held: &[i32]) -> Seen<reference::Matched> {
    let mut room = held.to_vec();
    let end = room.len() - GUARD;
    let numbers = f(&mut room[GUARD..end]);
    Seen { numbers, room }
}

/// Budgets and rooms near the ends of a run that is not cut.
fn near(r: &mut Random, end: u64, most: u64) -> u64 {
    match r.below(6) {
        0 => end,
        1 => end.saturating_sub(1),
        2 => end + 1,
        3 => r.below(end + 1),
        4 => r.below(8),
        _ => most,
    }
}

/// 1 or 2, now and then what is no form and no dialect.
pub fn one_or_two(r: &mut Random) -> u32 {
    if r.once_in(20) {
        return r.pick(&[0, 3, i32::MAX]) as u32;
    }
    1 + r.below(2) as u32
}

/// What the caller picks, of what the services have: half of the time what document 01 has.
fn picks(r: &mut Random, services: &Services) -> Picks {
    if r.once_in(2) {
        return PLAIN;
    }
    let form = if services.takes([2, 1, 1, 0, 0]) { one_or_two(r) } else { 1 };
    let dialect = if services.takes([1, 1, 2, 0, 0]) { one_or_two(r) } else { 1 };
    if !services.takes([1, 2, 1, 1, 0]) || r.once_in(2) {
        return [form, 1, dialect, 0, 0];
    }
    let table = match r.below(4) {
        0 => r.below(12),
        1 => r.below(60),
        _ => 256 + r.below(2),
    };
    [form, 2, dialect, table as u32, r.below(2) as u32]
}

impl Tally {
    fn see(&mut self, answer: u64, picks: Picks, rule: [&[i32]; 2], same: bool, input: impl FnOnce() -> String) {
        let [matcher, pattern] = rule;
        self.inputs += 1;
        self.dialects[answer as usize] += u64::from(picks[2] == 2);
        self.rounds[answer as usize] += u64::from(picks[1] == 2);
        self.answers[answer as usize] += 1;
        self.tuples[answer as usize] += u64::from(matcher.contains(&4));
        self.choices[answer as usize] += u64::from(pattern.iter().any(|word| (8..=10).contains(word)));
        if !same {
            self.differ += 1;
            if self.differ <= 5 {
                println!("differs: {}", input());
            }
        }
    }

    fn one(&mut self, r: &mut Random, services: &Services) {
        let mut matcher = inputs::matcher(r);
        let mut pattern = inputs::pattern(r, &matcher);
        let mut target = inputs::target(r, &matcher);
        if r.once_in(4) {
            for _ in 0..1 + r.below(2) {
                match r.below(4) {
                    0 => inputs::damage(r, &mut matcher),
                    1 => inputs::damage(r, &mut target),
                    _ => inputs::damage(r, &mut pattern),
                }
            }
        }
        if r.once_in(10) {
            inputs::damage_units(r, &mut target);
        }
        if r.once_in(10) {
            let cap = match r.below(8) {
                0 => r.pick(&[-1, 65, i32::MIN, i32::MAX]),
                1 | 2 => r.below(3) as i32,
                _ => r.below(65) as i32,
            };
            let dialect = if services.review_with.is_some() { one_or_two(r) } else { 1 };
            let ours = reference::review_with(dialect, &matcher, &pattern, cap);
            let theirs = match services.review_with {
                Some(call) if dialect != 1 => call(dialect, &matcher, &pattern, cap),
                _ => (services.review)(&matcher, &pattern, cap),
            };
            self.see(ours[0], [1, 1, dialect, 0, 0], [&matcher, &pattern], ours == theirs, || {
                format!("review {dialect} {matcher:?} {pattern:?} {cap} {ours:?} {theirs:?}")
            });
            return;
        }
        let picks = picks(r, services);
        let most = if r.once_in(50) { 50_000 } else { 1_500 };
        let plain = |budget, room: &mut [i32]| crate::picked_reference(picks, [&matcher, &pattern, &target], budget, room).unwrap();
        let whole = plain(most, &mut vec![0; 4096]);
        let budget = near(r, whole[3], most.into()) as u32;
        let room = near(r, whole[4], 4096).min(4096) as usize;
        let held: Vec<i32> = (0..room + 2 * GUARD).map(|_| r.next() as i32).collect();
        let (m, p, t) = (&matcher[..], &pattern[..], &target[..]);
        let ours = in_a_room(|room| plain(budget, room), &held);
        let theirs = in_a_room(
            |room| match picks {
                PLAIN => (services.match_words)(m, p, t, budget, room),
                _ => (services.picked)(picks, [m, p, t], budget, room).unwrap(),
            },
            &held,
        );
        let untouched = GUARD + ours.numbers[4] as usize;
        let kept = ours.room[..GUARD] == held[..GUARD] && ours.room[untouched..] == held[untouched..];
        let same = ours.numbers == theirs.numbers && ours.room == theirs.room && kept;
        self.causes[ours.numbers[5] as usize] += 1;
        self.see(ours.numbers[0], picks, [m, p], same, || {
            format!("{picks:?} {m:?} {p:?} {t:?} {budget} {room}: {:?} {:?}", ours.numbers, theirs.numbers)
        });
    }
}

pub fn random(services: &Services, inputs: u64, seed: u64) -> Tally {
    let none = [0; 23];
    let mut tally =
        Tally { inputs: 0, differ: 0, answers: none, tuples: none, choices: none, dialects: none, rounds: none, causes: [0; 8] };
    let mut r = Random(seed);
    while tally.inputs < inputs {
        tally.one(&mut r, services);
    }
    tally
}
