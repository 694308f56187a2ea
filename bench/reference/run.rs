//! The run of request No. 8, as its words say it: after each portion what one match with the portions' sum gives.

use super::{match_picked, Matched, Picked};

const ROOM_UNLIKE: u64 = 19;
const SPENT: u64 = 7;

pub struct Run {
    picked: Picked,
    words: [Vec<i32>; 3],
    room: usize,
    steps: u32,
    told: Matched,
    ended: bool,
}

impl Run {
    /// The run, and what the opening answers: the refusal, or zeros.
    pub fn open(form: u32, dialect: u32, words: [&[i32]; 3], room: usize) -> (Run, [u64; 3]) {
        let picked = Picked { form, dialect, table: None };
        let told = match_picked(picked, words, 0, &mut vec![0; room]);
        let words = words.map(<[i32]>::to_vec);
        let ended = told[0] != SPENT;
        let answer = if ended { [told[0], told[1], told[5]] } else { [0; 3] };
        (Run { picked, words, room, steps: 0, told, ended }, answer)
    }

    pub fn advance(&mut self, steps: u32, room: &mut [i32]) -> Matched {
        if room.len() != self.room {
            return [ROOM_UNLIKE, 0, 0, 0, 0, 0];
        }
        if !self.ended && steps > 0 {
            self.steps = self.steps.saturating_add(steps);
            let mut all = vec![0; self.room];
            let [matcher, pattern, target] = &self.words;
            let told = match_picked(self.picked, [matcher, pattern, target], self.steps, &mut all);
            let (from, to) = (self.told[4] as usize, told[4] as usize);
            room[from..to].copy_from_slice(&all[from..to]);
            self.told = told;
            self.ended = told[0] != SPENT;
        }
        self.told
    }
}
