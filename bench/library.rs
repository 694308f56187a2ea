//! The library through its C border: words as they are, the numbers in bytes, eight each, low byte first.

use crate::reference::{Matched, Reviewed};
use crate::scripts::Picks;

extern "C" {
    fn lozhbinor_match(
        matcher: *const i32,
        matcher_len: usize,
        pattern: *const i32,
        pattern_len: usize,
        target: *const i32,
        target_len: usize,
        budget: u32,
        room: *mut i32,
        room_len: usize,
        numbers: *mut u8,
        numbers_len: usize,
    ) -> u32;
    fn lozhbinor_match_with(
        form: u32,
        dialect: u32,
        matcher: *const i32,
        matcher_len: usize,
        pattern: *const i32,
        pattern_len: usize,
        target: *const i32,
        target_len: usize,
        budget: u32,
        room: *mut i32,
        room_len: usize,
        numbers: *mut u8,
        numbers_len: usize,
    ) -> u32;
    fn lozhbinor_rounds(
        form: u32,
        dialect: u32,
        matcher: *const i32,
        matcher_len: usize,
        pattern: *const i32,
        pattern_len: usize,
        target: *const i32,
        target_len: usize,
        budget: u32,
        table: *mut i32,
        table_len: usize,
        room: *mut i32,
        room_len: usize,
        numbers: *mut u8,
        numbers_len: usize,
    ) -> u32;
    fn lozhbinor_review(
        matcher: *const i32,
        matcher_len: usize,
        pattern: *const i32,
        pattern_len: usize,
        cap: i32,
        numbers: *mut u8,
        numbers_len: usize,
    ) -> u32;
    fn lozhbinor_review_with(
        dialect: u32,
        matcher: *const i32,
        matcher_len: usize,
        pattern: *const i32,
        pattern_len: usize,
        cap: i32,
        numbers: *mut u8,
        numbers_len: usize,
    ) -> u32;
    fn lozhbinor_book_add(
        book: *mut u8,
        book_len: usize,
        used: u32,
        version: u16,
        badge: u16,
        dialect: u32,
        matcher: *const i32,
        matcher_len: usize,
        pattern: *const i32,
        pattern_len: usize,
        numbers: *mut u8,
        numbers_len: usize,
    ) -> u32;
    fn lozhbinor_book_withdraw(
        book: *mut u8,
        book_len: usize,
        used: u32,
        badge: u16,
        numbers: *mut u8,
        numbers_len: usize,
    ) -> u32;
    fn lozhbinor_book_total(
        book: *const u8,
        book_len: usize,
        used: u32,
        numbers: *mut u8,
        numbers_len: usize,
    ) -> u32;
    fn lozhbinor_book_check(
        book: *const u8,
        book_len: usize,
        used: u32,
        numbers: *mut u8,
        numbers_len: usize,
    ) -> u32;
    fn lozhbinor_book_block(
        book: *const u8,
        book_len: usize,
        block: u32,
        words: *mut i32,
        words_len: usize,
        numbers: *mut u8,
        numbers_len: usize,
    ) -> u32;
    fn lozhbinor_book_read(
        book: *const u8,
        book_len: usize,
        used: u32,
        badge: u16,
        words: *mut i32,
        words_len: usize,
        numbers: *mut u8,
        numbers_len: usize,
    ) -> u32;
}

/// A word behind the lent table: it must stay.
const LEFT: i32 = -1515870811;

/// A byte that no number of a small run has, behind the numbers: it must stay.
pub const MARK: u8 = 0xa5;

/// The numbers in the bytes, after a look at what the call gave back and at the bytes behind them.
pub fn numbers<const N: usize>(bytes: &[u8], answer: u32) -> [u64; N] {
    let mut all = [0; N];
    for (number, bytes) in all.iter_mut().zip(bytes.chunks(8)) {
        *number = u64::from_le_bytes(bytes.try_into().unwrap());
    }
    assert_eq!(all[0], u64::from(answer), "the call gives back the answer");
    assert!(bytes[8 * N..].iter().all(|&b| b == MARK), "bytes behind the numbers were written");
    all
}

/// The call itself.
#[inline(always)]
pub fn call_match(rule: [&[i32]; 2], target: &[i32], budget: u32, room: &mut [i32], numbers: &mut [u8]) -> u32 {
    let [matcher, pattern] = rule;
    unsafe {
        lozhbinor_match(
            matcher.as_ptr(),
            matcher.len(),
            pattern.as_ptr(),
            pattern.len(),
            target.as_ptr(),
            target.len(),
            budget,
            room.as_mut_ptr(),
            room.len(),
            numbers.as_mut_ptr(),
            numbers.len(),
        )
    }
}

fn call_match_with(form: u32, dialect: u32, words: [&[i32]; 3], budget: u32, room: &mut [i32], numbers: &mut [u8]) -> u32 {
    let [matcher, pattern, target] = words;
    unsafe {
        lozhbinor_match_with(
            form,
            dialect,
            matcher.as_ptr(),
            matcher.len(),
            pattern.as_ptr(),
            pattern.len(),
            target.as_ptr(),
            target.len(),
            budget,
            room.as_mut_ptr(),
            room.len(),
            numbers.as_mut_ptr(),
            numbers.len(),
        )
    }
}

fn call_review(rule: [&[i32]; 2], cap: i32, numbers: &mut [u8]) -> u32 {
    let [m, p] = rule;
    unsafe { lozhbinor_review(m.as_ptr(), m.len(), p.as_ptr(), p.len(), cap, numbers.as_mut_ptr(), numbers.len()) }
}

pub fn match_words(matcher: &[i32], pattern: &[i32], target: &[i32], budget: u32, room: &mut [i32]) -> Matched {
    let mut bytes = [MARK; 56];
    let answer = call_match([matcher, pattern], target, budget, room, &mut bytes);
    numbers(&bytes, answer)
}

pub fn match_in(form: u32, dialect: u32, words: [&[i32]; 3], budget: u32, room: &mut [i32]) -> Matched {
    let mut bytes = [MARK; 56];
    let answer = call_match_with(form, dialect, words, budget, room, &mut bytes);
    numbers(&bytes, answer)
}

/// The words of a state in the lent table, as docs/ and the header have it.
const STATE_WORDS: usize = 825;

/// The other search order, over a table of so many states, and so many words less.
fn match_rounds([form, dialect]: [u32; 2], [states, less]: [u32; 2], words: [&[i32]; 3], budget: u32, room: &mut [i32]) -> Matched {
    thread_local!(static TABLE: std::cell::RefCell<Vec<i32>> = std::cell::RefCell::new(vec![LEFT; 1024 * STATE_WORDS]));
    let [matcher, pattern, target] = words;
    let mut bytes = [MARK; 56];
    let length = (states as usize * STATE_WORDS).saturating_sub(less as usize);
    TABLE.with(|table| {
        let mut table = table.borrow_mut();
        if table.len() <= length {
            table.resize(length + 1, LEFT);
        }
        table[length] = LEFT;
        let answer = unsafe {
            lozhbinor_rounds(
                form,
                dialect,
                matcher.as_ptr(),
                matcher.len(),
                pattern.as_ptr(),
                pattern.len(),
                target.as_ptr(),
                target.len(),
                budget,
                table.as_mut_ptr(),
                length,
                room.as_mut_ptr(),
                room.len(),
                bytes.as_mut_ptr(),
                bytes.len(),
            )
        };
        assert_eq!(table[length], LEFT, "a word behind the table was written");
        numbers(&bytes, answer)
    })
}

/// The picks that there are: the forms of No. 9, the order of No. 10 and the dialects of No. 13. What a later request lets the caller pick is a line here, when it lands.
pub fn picked(picks: Picks, words: [&[i32]; 3], budget: u32, room: &mut [i32]) -> Option<Matched> {
    match picks {
        [form, 1, dialect, ..] => Some(match_in(form, dialect, words, budget, room)),
        [form, 2, dialect, states, less] => Some(match_rounds([form, dialect], [states, less], words, budget, room)),
        _ => None,
    }
}

/// Rows in form 2.
pub fn match_origins(matcher: &[i32], pattern: &[i32], target: &[i32], budget: u32, room: &mut [i32]) -> Matched {
    match_in(2, 1, [matcher, pattern, target], budget, room)
}

pub fn review(matcher: &[i32], pattern: &[i32], cap: i32) -> Reviewed {
    let mut bytes = [MARK; 32];
    let answer = call_review([matcher, pattern], cap, &mut bytes);
    numbers(&bytes, answer)
}

/// Review in a dialect.
pub fn review_with(dialect: u32, matcher: &[i32], pattern: &[i32], cap: i32) -> Reviewed {
    let mut bytes = [MARK; 32];
    let (m, p) = (matcher, pattern);
    let answer = unsafe {
        lozhbinor_review_with(dialect, m.as_ptr(), m.len(), p.as_ptr(), p.len(), cap, bytes.as_mut_ptr(), bytes.len())
    };
    numbers(&bytes, answer)
}

pub fn book_add(book: &mut [u8], used: u32, version: u16, badge: u16, dialect: u32, rule: [&[i32]; 2]) -> [u64; 3] {
    let [m, p] = rule;
    let mut bytes = [MARK; 32];
    let answer = unsafe {
        lozhbinor_book_add(
            book.as_mut_ptr(),
            book.len(),
            used,
            version,
            badge,
            dialect,
            m.as_ptr(),
            m.len(),
            p.as_ptr(),
            p.len(),
            bytes.as_mut_ptr(),
            bytes.len(),
        )
    };
    numbers(&bytes, answer)
}

pub fn book_withdraw(book: &mut [u8], used: u32, badge: u16) -> [u64; 3] {
    let mut bytes = [MARK; 32];
    let out = bytes.as_mut_ptr();
    let answer = unsafe { lozhbinor_book_withdraw(book.as_mut_ptr(), book.len(), used, badge, out, 32) };
    numbers(&bytes, answer)
}

/// The total; the test by itself refuses the same, and names the block up to which all is good.
pub fn book_total(book: &[u8], used: u32) -> [u64; 3] {
    let mut bytes = [MARK; 32];
    let answer = unsafe { lozhbinor_book_total(book.as_ptr(), book.len(), used, bytes.as_mut_ptr(), 32) };
    let told = numbers(&bytes, answer);
    let [checked, block, _] = book_check(book, used);
    assert!(checked == told[0] && (block == u64::from(used)) == (answer == 0), "the test of a book");
    told
}

/// The refusal of the whole book, and the block that is refused.
pub fn book_check(book: &[u8], used: u32) -> [u64; 3] {
    let mut bytes = [MARK; 32];
    let answer = unsafe { lozhbinor_book_check(book.as_ptr(), book.len(), used, bytes.as_mut_ptr(), 32) };
    numbers(&bytes, answer)
}

/// One block by itself: answer, badge, version, dialect, the matcher's length, the pattern's.
pub fn book_block(book: &[u8], block: u32, words: &mut [i32]) -> [u64; 6] {
    let mut bytes = [MARK; 56];
    let (out, len) = (words.as_mut_ptr(), words.len());
    let answer = unsafe { lozhbinor_book_block(book.as_ptr(), book.len(), block, out, len, bytes.as_mut_ptr(), 56) };
    numbers(&bytes, answer)
}

pub fn book_read(book: &[u8], used: u32, badge: u16, words: &mut [i32]) -> [u64; 6] {
    let mut bytes = [MARK; 56];
    let (out, len) = (words.as_mut_ptr(), words.len());
    let answer = unsafe { lozhbinor_book_read(book.as_ptr(), book.len(), used, badge, out, len, bytes.as_mut_ptr(), 56) };
    numbers(&bytes, answer)
}

/// Answer 24: slices too short for the numbers, of every length; nothing is written anywhere. Gives how many were tried.
pub fn short() -> usize {
    let rule: [&[i32]; 2] = [&[3, 1], &[5, 1, 0, 0]];
    for len in 0..48 {
        let (mut bytes, mut room) = ([MARK; 48], [-7; 4]);
        let answer = call_match(rule, &[1, 1, 0, 7], 99, &mut room, &mut bytes[..len]);
        assert!(answer == 24 && bytes == [MARK; 48] && room == [-7; 4], "match, {len} bytes for the numbers");
        let words = [rule[0], rule[1], &[1, 1, 0, 7]];
        let answer = call_match_with(3, 1, words, 99, &mut room, &mut bytes[..len]);
        assert!(answer == 24 && bytes == [MARK; 48] && room == [-7; 4], "match with a form, {len} bytes for the numbers");
    }
    for len in 0..24 {
        let mut bytes = [MARK; 24];
        let answer = call_review(rule, 3, &mut bytes[..len]);
        assert!(answer == 24 && bytes == [MARK; 24], "review, {len} bytes for the numbers");
    }
    48 + 48 + 24
}
