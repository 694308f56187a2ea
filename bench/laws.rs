//! What is proved of the definitions, looked at in what the services give on random inputs: the rows of dialect 2 are some of dialect 1's, in their order, in
//! no more steps; those by rounds are the depth-first ones in another order, in as many.

use crate::inputs::{self, Random};
use crate::scripts::{BY_ROUNDS, PLAIN};
use crate::text::{self, Question};
use crate::{Services, IN_DIALECT_2};

/// How often a law was looked at, and how often it did not hold.
pub struct Tally {
    pub dialects: u64,
    pub rounds: u64,
    pub broken: u64,
}

/// Some of the rows, in their order.
fn some(rows: &[Vec<i32>], of: &[Vec<i32>]) -> bool {
    let mut left = of.iter();
    rows.iter().all(|row| left.any(|other| other == row))
}

fn sorted(mut rows: Vec<Vec<i32>>) -> Vec<Vec<i32>> {
    rows.sort_unstable();
    rows
}

impl Tally {
    fn one(&mut self, r: &mut Random, services: &Services) {
        let matcher = inputs::matcher(r);
        let (pattern, target) = (inputs::pattern(r, &matcher), inputs::target(r, &matcher));
        let q = Question { matcher, pattern, target, budget: 2_000, room: 4096 };
        let (one, rows) = text::answered(services, PLAIN, &q);
        if one[0] != 0 {
            return;
        }
        if services.takes(IN_DIALECT_2) {
            let (two, others) = text::answered(services, IN_DIALECT_2, &q);
            let misfit = two[0] == 4;
            self.dialects += u64::from(!misfit);
            self.broken += u64::from(!(misfit || two[0] == 0 && two[3] <= one[3] && some(&others, &rows)));
        }
        if services.takes(BY_ROUNDS) {
            let (by_rounds, others) = text::answered(services, BY_ROUNDS, &q);
            let table = by_rounds[0] == 21;
            self.rounds += u64::from(!table);
            self.broken += u64::from(!(table || by_rounds[0] == 0 && by_rounds[3] == one[3] && sorted(others) == sorted(rows)));
        }
    }
}

pub fn random(services: &Services, inputs: u64, seed: u64) -> Tally {
    let mut tally = Tally { dialects: 0, rounds: 0, broken: 0 };
    let mut r = Random(seed);
    (0..inputs).for_each(|_| tally.one(&mut r, services));
    tally
}
