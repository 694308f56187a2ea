//! A run through the C border: the struct that the game owns, the two calls on it, and what an advance costs.

use crate::reference::Matched;
use crate::scripts::{Advance, Picks};
use crate::{library, speed};

/// The bytes of a run, as the header states them, in words of eight: what the game owns and the library fills.
pub const BYTES: usize = 16_632;

#[repr(C)]
#[derive(Clone)]
pub struct Run([u64; BYTES / 8]);

extern "C" {
    fn lozhbinor_open(
        run: *mut Run,
        form: u32,
        dialect: u32,
        matcher: *const i32,
        matcher_len: usize,
        pattern: *const i32,
        pattern_len: usize,
        target: *const i32,
        target_len: usize,
        room_words: u32,
        numbers: *mut u8,
        numbers_len: usize,
    ) -> u32;
    fn lozhbinor_advance(run: *mut Run, steps: u32, room: *mut i32, room_len: usize, numbers: *mut u8, numbers_len: usize) -> u32;
}

/// What stands in a run before it is opened: it must not matter.
const BEFORE: u64 = 0x5a5a_5a5a_5a5a_5a5a;

fn call_open(run: &mut Run, form: u32, dialect: u32, words: [&[i32]; 3], room: u32, numbers: &mut [u8]) -> u32 {
    let [m, p, t] = words;
    unsafe {
        lozhbinor_open(
            run,
            form,
            dialect,
            m.as_ptr(),
            m.len(),
            p.as_ptr(),
            p.len(),
            t.as_ptr(),
            t.len(),
            room,
            numbers.as_mut_ptr(),
            numbers.len(),
        )
    }
}

#[inline(always)]
fn call_advance(run: &mut Run, steps: u32, room: &mut [i32], numbers: &mut [u8]) -> u32 {
    unsafe { lozhbinor_advance(run, steps, room.as_mut_ptr(), room.len(), numbers.as_mut_ptr(), numbers.len()) }
}

pub fn opened(form: u32, dialect: u32, words: [&[i32]; 3], room: u32) -> (Run, [u64; 3]) {
    let mut run = Run([BEFORE; BYTES / 8]);
    let mut bytes = [library::MARK; 32];
    let answer = call_open(&mut run, form, dialect, words, room, &mut bytes);
    (run, library::numbers(&bytes, answer))
}

pub fn advanced(run: &mut Run, steps: u32, room: &mut [i32]) -> Matched {
    let mut bytes = [library::MARK; 56];
    let answer = call_advance(run, steps, room, &mut bytes);
    library::numbers(&bytes, answer)
}

/// The picks that there are: the forms of No. 9 and the dialects of No. 13. A run goes depth-first.
pub fn open(picks: Picks, words: [&[i32]; 3], room: u32) -> Option<(Advance, [u64; 3])> {
    let [form, order, dialect, ..] = picks;
    if order != 1 {
        return None;
    }
    let (mut run, answer) = opened(form, dialect, words, room);
    Some((Box::new(move |steps, room| advanced(&mut run, steps, room)), answer))
}

/// Answer 24: slices too short for the numbers, of every length; neither run nor room is touched. Gives how many were tried.
pub fn short() -> usize {
    let words: [&[i32]; 3] = [&[3, 1], &[5, 1, 0, 0], &[1, 1, 0, 7]];
    let (fresh, _) = opened(1, 1, words, 4);
    for len in 0..48 {
        let (mut run, mut bytes, mut room) = (fresh.clone(), [library::MARK; 48], [-7; 4]);
        let answer = call_advance(&mut run, 99, &mut room, &mut bytes[..len]);
        assert!(answer == 24 && run.0 == fresh.0 && bytes == [library::MARK; 48] && room == [-7; 4], "advance, {len} bytes for the numbers");
    }
    for len in 0..24 {
        let (mut run, mut bytes) = (fresh.clone(), [library::MARK; 24]);
        let answer = call_open(&mut run, 3, 3, words, 1, &mut bytes[..len]);
        assert!(answer == 24 && run.0 == fresh.0 && bytes == [library::MARK; 24], "open, {len} bytes for the numbers");
    }
    48 + 24
}

/// A rule is run for `calls` times 1,000 steps: in as many advances, or in one match by that budget.
pub fn portions(case: &speed::Case, calls: u32, by_match: bool) {
    let (words, target) = case.words();
    let mut room = vec![0; 600_000];
    if by_match {
        library::match_words(words[0], words[1], &target, 1_000 * calls, &mut room);
        return;
    }
    let (mut run, _) = opened(1, 1, [words[0], words[1], &target], room.len() as u32);
    for _ in 0..calls {
        advanced(&mut run, 1_000, &mut room);
    }
}
