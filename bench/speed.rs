//! What is measured: ten rules and two small calls, each again and again, so that the instructions of one step or one call can be counted from
//! outside; and the stack of a call. The bars stand here, in one table: above them `bench/run speed` fails.

use crate::Services;

/// A rule, its units, and the most instructions, in tenths, that the library may take: for a step, or for the whole call.
pub struct Case {
    pub name: &'static str,
    pub about: &'static str,
    pub bar: u64,
    pub per: Per,
    matcher: &'static [i32],
    pattern: &'static [i32],
    target: fn() -> Vec<i32>,
    budget: u32,
}

#[derive(Clone, Copy, PartialEq)]
pub enum Per {
    Step,
    Call,
}

/// The deepest stack of a match call that is allowed, in bytes.
pub const STACK_BAR: usize = 29_440;

/// The same of an advance.
pub const ADVANCE_STACK_BAR: usize = 89_600;

/// The most that dialect 2 may take of dialect 1's instructions, in tenths; and the most instructions of a state by rounds.
pub const DIALECT_BAR: u64 = 20;
pub const ROUNDS_BAR: u64 = 1_280;

/// An advance by 1,000 steps: in hundredths the most of the same steps inside one match, and the instructions that may be added; the rules that are measured.
pub const ADVANCE_BAR: (u64, u64) = (115, 9_000);
pub const ADVANCED: &str = "T1 T2 T3 T4";

/// The most instructions for a word of a book of 1,000 rules that is tested and listed, block by block.
pub const LISTING_BAR: u64 = 40;

const MULTISET: &[i32] = &[3, 1];
const LIST: &[i32] = &[2, 1];
const PAIRS: &[i32] = &[3, 4, 2, 1, 1];
const HANDS: &[i32] = &[3, 3, 1];

const TWO_OF_A_RANK: &[i32] = &[5, 1, 0, 5, 3, 0, 0, 0];
const THREE_OF_A_RANK: &[i32] = &[5, 1, 0, 5, 3, 0, 0, 5, 3, 0, 0, 0];
const FOUR_VARIABLES: &[i32] = &[5, 1, 0, 5, 1, 1, 5, 1, 2, 5, 1, 3, 0];
const FOUR_WILDCARDS: &[i32] = &[5, 0, 5, 0, 5, 0, 5, 0, 0];
const TWICE_IN_A_LIST: &[i32] = &[6, 0, 5, 1, 0, 6, 0, 5, 3, 0, 0, 0];
const ONE_KIND_TWO_RANKS: &[i32] = &[5, 7, 2, 1, 0, 1, 1, 5, 7, 2, 3, 0, 0, 3, 1, 1, 0];
const NO_OTHER_OF_ITS_KIND: &[i32] = &[5, 7, 2, 1, 0, 1, 1, 10, 5, 7, 2, 3, 0, 0, 0, 0];
const THREE_IN_A_ROW: &[i32] = &[6, 0, 5, 1, 0, 5, 3, 0, 1, 5, 3, 0, 2, 0];
const FRONT_AND_BACK: &[i32] = &[6, 1, 0, 1, 1];

#[rustfmt::skip]
pub const CASES: [Case; 12] = [
    Case { name: "T1", about: "two of a rank, 64 equal", bar: 130, per: Per::Step,
        matcher: MULTISET, pattern: TWO_OF_A_RANK, target: || units(64, |_| 7), budget: u32::MAX },
    Case { name: "T2", about: "two of a rank, 64 unequal", bar: 220, per: Per::Step,
        matcher: MULTISET, pattern: TWO_OF_A_RANK, target: || units(64, |k| k), budget: u32::MAX },
    Case { name: "T3", about: "four cons over variables, 16", bar: 268, per: Per::Step,
        matcher: MULTISET, pattern: FOUR_VARIABLES, target: || units(16, |k| k), budget: u32::MAX },
    Case { name: "T4", about: "four cons over wildcards, 16", bar: 149, per: Per::Step,
        matcher: MULTISET, pattern: FOUR_WILDCARDS, target: || units(16, |k| k), budget: u32::MAX },
    Case { name: "T5", about: "list: join cons join cons, 64", bar: 850, per: Per::Step,
        matcher: LIST, pattern: TWICE_IN_A_LIST, target: || units(64, |k| k % 24), budget: u32::MAX },
    Case { name: "T6", about: "three of a rank, 64 in 8 ranks", bar: 273, per: Per::Step,
        matcher: MULTISET, pattern: THREE_OF_A_RANK, target: || units(64, |k| k % 8), budget: u32::MAX },
    Case { name: "T7", about: "pairs, one kind, ranks one apart, 32", bar: 590, per: Per::Step,
        matcher: PAIRS, pattern: ONE_KIND_TWO_RANKS, target: || pairs(32, |k| (k % 4, k / 4)), budget: u32::MAX },
    Case { name: "T8", about: "pairs, no other of its kind, 32", bar: 553, per: Per::Step,
        matcher: PAIRS, pattern: NO_OTHER_OF_ITS_KIND, target: || pairs(32, |k| (k % 12, k)), budget: u32::MAX },
    Case { name: "T9", about: "list: join, three conses, 64", bar: 920, per: Per::Step,
        matcher: LIST, pattern: THREE_IN_A_ROW, target: || units(64, |k| k), budget: u32::MAX },
    Case { name: "T10", about: "twelve hands of six, as multisets", bar: 2350, per: Per::Step,
        matcher: HANDS, pattern: TWO_OF_A_RANK, target: || hands(12), budget: u32::MAX },
    Case { name: "none", about: "budget 0 on 64 units, whole call", bar: 36_000, per: Per::Call,
        matcher: MULTISET, pattern: TWO_OF_A_RANK, target: || units(64, |_| 7), budget: 0 },
    // with some twenty for the caller's own instructions, which differ from compiler to compiler
    Case { name: "P1", about: "two of a rank, {2 8 2}, whole call", bar: 46_900, per: Per::Call,
        matcher: MULTISET, pattern: TWO_OF_A_RANK, target: || vec![1, 3, 0, 2, 0, 8, 0, 2], budget: u32::MAX },
];

/// Measured in either order, and with no bar of their own. By rounds T1 comes to answer 21 after few states; 18 units do not.
#[rustfmt::skip]
pub const EITHER_ORDER: [Case; 2] = [
    Case { name: "join", about: "list: join of two variables, 64", bar: 0, per: Per::Step,
        matcher: LIST, pattern: FRONT_AND_BACK, target: || units(64, |k| k), budget: u32::MAX },
    Case { name: "two", about: "two of a rank, 18 equal", bar: 0, per: Per::Step,
        matcher: MULTISET, pattern: TWO_OF_A_RANK, target: || units(18, |_| 7), budget: u32::MAX },
];

/// Of each kind a small one first, then larger ones: no state of these may take more than so many hundredths of what one of the small ones takes.
pub const GROWN_BAR: u64 = 110;

#[rustfmt::skip]
pub const GROWN: [[Case; 3]; 2] = [
    [
        grown("4 units", TWO_OF_A_RANK, || units(4, |k| k)),
        grown("16 units", TWO_OF_A_RANK, || units(16, |k| k)),
        grown("64 units", TWO_OF_A_RANK, || units(64, |k| k)),
    ],
    [
        grown("9 pattern words", &ands::<9>(), || units(4, |k| k)),
        grown("65 pattern words", &ands::<65>(), || units(4, |k| k)),
        grown("255 pattern words", &ands::<255>(), || units(4, |k| k)),
    ],
];

const fn grown(name: &'static str, pattern: &'static [i32], target: fn() -> Vec<i32>) -> Case {
    Case { name, about: "", bar: 0, per: Per::Step, matcher: MULTISET, pattern, target, budget: u32::MAX }
}

/// Wildcards joined by and: so many words, an odd number.
const fn ands<const WORDS: usize>() -> [i32; WORDS] {
    let mut words = [0; WORDS];
    let mut at = 0;
    while at + 1 < WORDS {
        words[at] = 8;
        at += 2;
    }
    words
}

fn units(count: i32, unit: fn(i32) -> i32) -> Vec<i32> {
    [1, count].into_iter().chain((0..count).flat_map(|k| [0, unit(k)])).collect()
}

fn pairs(count: i32, pair: fn(i32) -> (i32, i32)) -> Vec<i32> {
    [1, count].into_iter().chain((0..count).flat_map(|k| [2, 2, 0, pair(k).0, 0, pair(k).1])).collect()
}

/// Hands of six, of three sorts, each turned by a few places.
fn hands(count: i32) -> Vec<i32> {
    let hand = |h| [1, 6].into_iter().chain((0..6).flat_map(move |k| [0, h % 3 * 6 + (k + h) % 6]));
    [1, count].into_iter().chain((0..count).flat_map(hand)).collect()
}

impl Case {
    /// Matcher and pattern, and the units.
    pub fn words(&self) -> ([&'static [i32]; 2], Vec<i32>) {
        ([self.matcher, self.pattern], (self.target)())
    }

    /// Runs the rule `rounds` times, perhaps by another budget; gives the steps of one run. With no rounds all else is done, so that it can be taken off.
    pub fn run(&self, services: &Services, rounds: u64, budget: Option<u32>) -> u64 {
        let target = (self.target)();
        let mut room = vec![0; 600_000];
        let budget = budget.unwrap_or(self.budget);
        let mut steps = 0;
        for _ in 0..rounds {
            let numbers = (services.match_words)(self.matcher, self.pattern, &target, budget, &mut room);
            assert!(if budget == 0 { numbers[0] == 7 } else { numbers[0] == 0 || numbers[0] == 21 });
            steps = numbers[3];
        }
        steps
    }
}
