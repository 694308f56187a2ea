//! The rule book of request No. 7, plainly: blocks of 512 bytes, 256 words of 16 bits each.

use super::review_with;

pub const BLOCK: usize = 512;
const CHECK: usize = 254;
const LONGEST: usize = 124;

const NOT_ITS_CHECK: u64 = 12;
const NOT_ITS_NUMBER: u64 = 13;
const NO_VERSION: u64 = 14;
const NO_FORM: u64 = 15;
const LIVE_ALREADY: u64 = 16;
const NO_BLOCK: u64 = 17;
const TOO_LONG: u64 = 18;
const NOT_LIVE: u64 = 23;

type Words = [u16; 256];

pub fn block(book: &[u8], at: usize) -> Option<Words> {
    let bytes = book.get(at * BLOCK..(at + 1) * BLOCK)?;
    Some(std::array::from_fn(|i| u16::from_le_bytes([bytes[2 * i], bytes[2 * i + 1]])))
}

pub fn store(book: &mut [u8], at: usize, words: &Words) {
    for (bytes, word) in book[at * BLOCK..(at + 1) * BLOCK].chunks_mut(2).zip(words) {
        bytes.copy_from_slice(&word.to_le_bytes());
    }
}

/// The check, made good.
pub fn seal(words: &mut Words) {
    let sum = check(words);
    words[CHECK..].copy_from_slice(&sum);
}

fn check(words: &Words) -> [u16; 2] {
    let sum: u64 = (0..CHECK).map(|i| u64::from(words[i]) * (i as u64 + 1)).sum::<u64>() % 65537;
    [(sum & 0xffff) as u16, (sum >> 16) as u16]
}

struct Rule {
    version: u16,
    badge: u16,
    dialect: u32,
    matcher: Vec<i32>,
    pattern: Vec<i32>,
}

/// Review's tests 1 to 4, in the rule's dialect.
fn is_rule(dialect: u32, matcher: &[i32], pattern: &[i32]) -> bool {
    !(1..=4).contains(&review_with(dialect, matcher, pattern, 0)[0])
}

/// The rule of a live block, if the block is laid out as one.
fn rule(words: &Words) -> Option<Rule> {
    let n = usize::from(words[3]);
    let (dialect, length) =
        if words[1] == 2 { (1 + u32::from(words[4] >> 15), words[4] & 0x7fff) } else { (1, words[4]) };
    if n > LONGEST || usize::from(length) > n || words[5 + 2 * n..CHECK].iter().any(|&word| word != 0) {
        return None;
    }
    let mut matcher: Vec<i32> =
        (0..n).map(|k| (u32::from(words[5 + 2 * k]) | u32::from(words[6 + 2 * k]) << 16) as i32).collect();
    let pattern = matcher.split_off(length.into());
    is_rule(dialect, &matcher, &pattern).then(|| Rule { version: words[1], badge: words[2], dialect, matcher, pattern })
}

/// The blocks in use, each with its rule or none; or the first refusal, block by block.
fn opened(book: &[u8], used: u32) -> Result<Vec<Option<Rule>>, u64> {
    let mut rules: Vec<Option<Rule>> = Vec::new();
    for at in 0..used as usize {
        let words = block(book, at).ok_or(NOT_ITS_NUMBER)?;
        if words[CHECK..] != check(&words) {
            return Err(NOT_ITS_CHECK);
        }
        if usize::from(words[0]) != at {
            return Err(NOT_ITS_NUMBER);
        }
        if !(1..=2).contains(&words[1]) {
            return Err(NO_VERSION);
        }
        if words[2] == 0 {
            if words[3..CHECK].iter().any(|&word| word != 0) {
                return Err(NO_FORM);
            }
            rules.push(None);
        } else {
            if rules.iter().flatten().any(|rule| rule.badge == words[2]) {
                return Err(NO_FORM);
            }
            rules.push(Some(rule(&words).ok_or(NO_FORM)?));
        }
    }
    Ok(rules)
}

/// A rule as block `at`, whatever stands there and in the others.
fn lay(book: &mut [u8], at: usize, new: &Rule) {
    let n = new.matcher.len() + new.pattern.len();
    let mut words = [0; 256];
    words[..4].copy_from_slice(&[at as u16, new.version, new.badge, n as u16]);
    words[4] = new.matcher.len() as u16 | if new.dialect == 2 { 0x8000 } else { 0 };
    for (k, &word) in new.matcher.iter().chain(&new.pattern).enumerate() {
        words[5 + 2 * k] = word as u16;
        words[6 + 2 * k] = (word as u32 >> 16) as u16;
    }
    seal(&mut words);
    store(book, at, &words);
}

fn added(book: &mut [u8], used: u32, new: Rule) -> Result<u32, u64> {
    let rules = opened(book, used)?;
    if !(1..=2).contains(&new.version) {
        return Err(NO_VERSION);
    }
    let dialects = if new.version == 2 { 1..=2 } else { 1..=1 };
    if new.badge == 0 || !dialects.contains(&new.dialect) || !is_rule(new.dialect, &new.matcher, &new.pattern) {
        return Err(NO_FORM);
    }
    if rules.iter().flatten().any(|rule| rule.badge == new.badge) {
        return Err(LIVE_ALREADY);
    }
    let n = new.matcher.len() + new.pattern.len();
    if n > LONGEST {
        return Err(TOO_LONG);
    }
    let at = rules.iter().position(Option::is_none).unwrap_or(rules.len());
    if at > 65535 || block(book, at).is_none() {
        return Err(NO_BLOCK);
    }
    lay(book, at, &new);
    Ok(used.max(at as u32 + 1))
}

fn withdrawn(book: &mut [u8], used: u32, badge: u16) -> Result<u32, u64> {
    let rules = opened(book, used)?;
    let live = |rule: &Option<Rule>| matches!(rule, Some(rule) if rule.badge == badge);
    let at = rules.iter().position(live).ok_or(NOT_LIVE)?;
    let mut words = [0; 256];
    let old = block(book, at).unwrap();
    words[..2].copy_from_slice(&old[..2]);
    seal(&mut words);
    store(book, at, &words);
    Ok(used)
}

#[cfg(library)]
/// A book of one block for each pattern, under one matcher, with badges from 1 on.
pub fn bound(matcher: &[i32], patterns: &[Vec<i32>]) -> Vec<u8> {
    let mut book = vec![0; BLOCK * patterns.len()];
    for (at, pattern) in patterns.iter().enumerate() {
        let (matcher, pattern) = (matcher.to_vec(), pattern.clone());
        lay(&mut book, at, &Rule { version: 1, badge: at as u16 + 1, dialect: 1, matcher, pattern });
    }
    book
}

/// Answer, number, blocks in use.
pub fn add(book: &mut [u8], used: u32, version: u16, badge: u16, dialect: u32, rule: [&[i32]; 2]) -> [u64; 3] {
    let [matcher, pattern] = rule.map(<[i32]>::to_vec);
    match added(book, used, Rule { version, badge, dialect, matcher, pattern }) {
        Ok(used) => [0, 0, used.into()],
        Err(answer) => [answer, 0, used.into()],
    }
}

pub fn withdraw(book: &mut [u8], used: u32, badge: u16) -> [u64; 3] {
    match withdrawn(book, used, badge) {
        Ok(used) => [0, 0, used.into()],
        Err(answer) => [answer, 0, used.into()],
    }
}

pub fn total(book: &[u8], used: u32) -> [u64; 3] {
    match opened(book, used) {
        Ok(rules) => [0, rules.iter().flatten().count() as u64, used.into()],
        Err(answer) => [answer, 0, used.into()],
    }
}

/// Answer, found, version, dialect, the matcher's length, the pattern's; the words of both at the start of those lent.
pub fn read(book: &[u8], used: u32, badge: u16, words: &mut [i32]) -> [u64; 6] {
    let rules = match opened(book, used) {
        Ok(rules) => rules,
        Err(answer) => return [answer, 0, 0, 0, 0, 0],
    };
    let rule = match rules.iter().flatten().find(|rule| rule.badge == badge) {
        Some(rule) => rule,
        None => return [0; 6],
    };
    for (word, from) in words.iter_mut().zip(rule.matcher.iter().chain(&rule.pattern)) {
        *word = *from;
    }
    let [m, p] = [&rule.matcher, &rule.pattern].map(|words| words.len() as u64);
    [0, 1, rule.version.into(), rule.dialect.into(), m, p]
}
