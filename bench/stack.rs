//! The deepest stack of a call, a match or an advance: the stack below the caller is painted, and after the call the lowest byte that lost its paint is looked for.

use crate::library::call_match;
use crate::runs;
use std::arch::asm;
use std::ptr::{read_volatile, write_volatile};

const PAINT: u8 = 0xa5;
const PAINTED: usize = 200_000;

/// What leaf code may keep below the stack pointer.
const RED_ZONE: usize = 128;

/// How many bytes below this frame a call writes.
#[inline(never)]
fn below(call: impl FnOnce()) -> usize {
    let top: usize;
    unsafe { asm!("mov {}, rsp", out(reg) top) };
    for at in top - PAINTED..top - RED_ZONE {
        unsafe { write_volatile(at as *mut u8, PAINT) };
    }
    call();
    let lowest = (top - PAINTED..top).find(|&at| unsafe { read_volatile(at as *const u8) } != PAINT);
    top - lowest.unwrap_or(top)
}

fn depth(rule: [&[i32]; 2], target: &[i32]) -> usize {
    let (mut room, mut numbers) = ([0; 64], [0; 48]);
    below(|| {
        call_match(rule, target, u32::MAX, &mut room, &mut numbers);
    })
}

/// Of an advance: it keeps copies of the run, and calls what a match calls.
pub fn of_an_advance() -> usize {
    let words: [&[i32]; 3] = [&[3, 3, 3, 3, 1], &[5, 1, 0, 5, 3, 0, 0, 0], &[1, 2, 1, 1, 1, 1, 1, 1, 0, 5, 1, 1, 1, 1, 1, 1, 0, 5]];
    let (mut run, mut room) = (runs::opened(1, 1, words, 64).0, [0; 64]);
    below(|| {
        runs::advanced(&mut run, 1_000, &mut room);
    })
}

/// A value of so many collections or tuples, one inside the other.
fn nested(depth: usize, tuples: bool) -> Vec<i32> {
    match (depth, tuples) {
        (0, _) => vec![0, 7],
        (_, false) => [vec![1, 1], nested(depth - 1, tuples)].concat(),
        (_, true) => [vec![2, 2, 0, 7], nested(depth - 1, tuples)].concat(),
    }
}

/// The deepest of calls that nest as far as the limits allow: values under something, in collections and tuples; matchers, and equality under them.
pub fn deepest() -> usize {
    let mut all = vec![
        depth([&[3, 1], &[5, 1, 0, 5, 3, 0, 0, 0]], &[1, 3, 0, 2, 0, 8, 0, 2]),
        depth([&[3, 3, 3, 3, 1], &[5, 1, 0, 5, 3, 0, 0, 0]], &[1, 2, 1, 1, 1, 1, 1, 1, 0, 5, 1, 1, 1, 1, 1, 1, 0, 5]),
    ];
    for tuples in [false, true] {
        all.push(depth([&[0], &[1, 0]], &nested(8, tuples)));
        all.push(depth([&[3, 0], &[5, 1, 0, 0]], &[vec![1, 1], nested(7, tuples)].concat()));
    }
    all.push(depth([&[2, 2, 2, 2, 1], &[5, 1, 0, 0]], &nested(4, false)));
    all.push(depth([&[4, 2, 1, 4, 2, 1, 4, 2, 1, 4, 2, 1, 1], &[1, 0]], &nested(4, true)));
    all.into_iter().max().unwrap_or(0)
}
