//! Plays what came with the requests from No. 7 on: cases with picks, and scripts for books and for runs. A case or script is its lines up to a line
//! `--`; lines that begin with `#` before it say what comes. What the services do not have yet is counted and not played.

use crate::reference::Matched;
use crate::{text, Services};

/// The calls on a book, each on the bytes lent and the number of blocks in use.
pub struct Book {
    pub add: fn(&mut [u8], u32, u16, u16, u32, [&[i32]; 2]) -> [u64; 3],
    pub withdraw: fn(&mut [u8], u32, u16) -> [u64; 3],
    pub total: fn(&[u8], u32) -> [u64; 3],
    pub read: fn(&[u8], u32, u16, &mut [i32]) -> [u64; 6],
}

/// An open run: steps and the room lent to it.
pub type Advance = Box<dyn FnMut(u32, &mut [i32]) -> Matched>;

/// What the caller picks: form, order, dialect, and the states and words of a table.
pub type Picks = [u32; 5];

/// As before No. 9.
pub const PLAIN: Picks = [1, 1, 1, 0, 0];

/// The other search order, in a table of the most states with which a round may begin.
pub const BY_ROUNDS: Picks = [1, 2, 1, 256, 0];

/// A byte, and a word, that stand where nothing was written.
const LENT: u8 = 170;
const ROOM: i32 = 77;

type Played = Result<(), String>;

fn numbers<T: std::str::FromStr>(line: &str) -> Vec<T> {
    let each = |word: &str| word.parse().unwrap_or_else(|_| panic!("no number of this kind: {line}"));
    line.split_ascii_whitespace().map(each).collect()
}

fn words(line: &str) -> Vec<i32> {
    text::words(line.as_bytes()).unwrap_or_else(|| panic!("no words: {line}"))
}

fn line<T: ToString>(numbers: &[T]) -> String {
    numbers.iter().map(T::to_string).collect::<Vec<_>>().join(" ")
}

fn same(what: &str, wanted: &str, got: &str) -> Played {
    if wanted == got {
        Ok(())
    } else {
        Err(format!("{what}: wanted {wanted}\n{what}: got    {got}"))
    }
}

/// The lines of a script, one after the other.
struct Lines<'a>(std::slice::Iter<'a, &'a str>);

impl<'a> Lines<'a> {
    fn next(&mut self) -> &'a str {
        self.0.next().expect("a line is missing")
    }

    /// What stands behind `= `.
    fn wanted(&mut self) -> &'a str {
        let line = self.next();
        line.strip_prefix("= ").unwrap_or_else(|| panic!("no answer: {line}"))
    }
}

/// The bytes of a book, and what they must be.
struct Lent {
    bytes: Vec<u8>,
    wanted: Vec<u8>,
    used: u32,
}

impl Lent {
    fn change(bytes: &mut [u8], block: usize, word: usize, new: impl Fn(u16) -> u16) {
        let at = 512 * block + 2 * word;
        let old = u16::from_le_bytes([bytes[at], bytes[at + 1]]);
        bytes[at..at + 2].copy_from_slice(&new(old).to_le_bytes());
    }

    fn word(&self, block: usize, word: usize) -> u16 {
        let at = 512 * block + 2 * word;
        u16::from_le_bytes([self.bytes[at], self.bytes[at + 1]])
    }

    /// A change that the script makes.
    fn make(&mut self, block: usize, word: usize, new: impl Fn(u16) -> u16) {
        Self::change(&mut self.bytes, block, word, &new);
        Self::change(&mut self.wanted, block, word, &new);
    }

    /// A block as a line `@` tells it: its number, the check's halves, the words up to the last that is not 0.
    fn expect(&mut self, told: &[u32]) {
        for word in 0..256 {
            let new = match word {
                254 => told[1],
                255 => told[2],
                _ => told.get(3 + word).copied().unwrap_or(0),
            };
            Self::change(&mut self.wanted, told[0] as usize, word, |_| new as u16);
        }
    }
}

fn play_book(book: &Book, script: &[&str]) -> Played {
    let mut lines = Lines(script.iter());
    let mut lent = Lent { bytes: Vec::new(), wanted: Vec::new(), used: 0 };
    while let Some(&call) = lines.0.next() {
        let (name, rest) = call.split_once(' ').unwrap_or((call, ""));
        let n: Vec<u32> = numbers(rest);
        let got = match name {
            "open" => {
                lent.bytes = vec![LENT; 512 * n[0] as usize + n[1] as usize];
                lent.wanted = lent.bytes.clone();
                lent.used = 0;
                continue;
            }
            "put" => {
                lent.make(n[0] as usize, n[1] as usize, |_| n[2] as u16);
                continue;
            }
            "xor" => {
                lent.make(n[0] as usize, n[1] as usize, |word| word ^ n[2] as u16);
                continue;
            }
            "swap" => {
                let (b, i, j) = (n[0] as usize, n[1] as usize, n[2] as usize);
                let (x, y) = (lent.word(b, i), lent.word(b, j));
                lent.make(b, i, |_| y);
                lent.make(b, j, |_| x);
                continue;
            }
            "use" => {
                lent.used = n[0];
                continue;
            }
            "block" => {
                let all: Vec<u16> = (0..256).map(|word| lent.word(n[0] as usize, word)).collect();
                same(call, lines.wanted(), &line(&all))?;
                continue;
            }
            "add" => {
                let (matcher, pattern) = (words(lines.next()), words(lines.next()));
                (book.add)(&mut lent.bytes, lent.used, n[0] as u16, n[1] as u16, n[2], [&matcher, &pattern])
            }
            "withdraw" => (book.withdraw)(&mut lent.bytes, lent.used, n[0] as u16),
            "total" => (book.total)(&lent.bytes, lent.used),
            "read" => {
                let mut all = [ROOM; 124];
                let got = (book.read)(&lent.bytes, lent.used, n[0] as u16, &mut all);
                same(call, lines.wanted(), &line(&[got[0], got[1], lent.used.into()]))?;
                let (m, p) = (got[4] as usize, got[5] as usize);
                if got[1] == 1 {
                    same(call, lines.next(), &line(&got[2..4]))?;
                    same(call, lines.next(), &line(&all[..m]))?;
                    same(call, lines.next(), &line(&all[m..m + p]))?;
                }
                let written = if got[1] == 1 { m + p } else { 0 };
                same(call, "", &line(&all[written..]).replace("77", "").replace(' ', ""))?;
                same(
                    call,
                    "no byte changed",
                    if lent.bytes == lent.wanted { "no byte changed" } else { "a byte changed" },
                )?;
                continue;
            }
            _ => panic!("no such call: {call}"),
        };
        same(call, lines.wanted(), &line(&got))?;
        lent.used = got[2] as u32;
        if got[0] == 0 && name != "total" {
            let told = lines.next();
            lent.expect(&numbers(told.strip_prefix("@ ").unwrap_or_else(|| panic!("no block: {told}"))));
        }
        same(
            call,
            "the block told, no other byte",
            if lent.bytes == lent.wanted { "the block told, no other byte" } else { "other bytes" },
        )?;
    }
    Ok(())
}

/// None, where there is no run with what the script picks.
fn play_run(services: &Services, script: &[&str]) -> Option<Played> {
    let opens = |at: usize| (services.open)(picks(script[at + 1]), [&[1], &[0], &[0, 7]], 0).is_some();
    let mut all = (0..script.len()).filter(|&at| script[at] == "open");
    all.all(opens).then(|| play_calls(services, script))
}

fn play_calls(services: &Services, script: &[&str]) -> Played {
    let mut lines = Lines(script.iter());
    let mut run: Option<Advance> = None;
    let mut room = vec![ROOM; 4096];
    while let Some(&call) = lines.0.next() {
        let (name, rest) = call.split_once(' ').unwrap_or((call, ""));
        match name {
            "open" => {
                room.fill(ROOM);
                let picks = picks(lines.next());
                let mut given = [(); 3].map(|_| words(lines.next()));
                let size = numbers::<u32>(lines.next())[0];
                let (opened, answer) = (services.open)(picks, [&given[0], &given[1], &given[2]], size).unwrap();
                given.iter_mut().flatten().for_each(|word| *word = -1);
                same(call, lines.wanted(), &line(&answer))?;
                run = Some(opened);
            }
            "advance" => {
                let n: Vec<u32> = numbers(rest);
                let mut wanted = room.clone();
                let got = run.as_mut().expect("no run is open")(n[0], &mut room[..n[1] as usize]);
                same(call, lines.wanted(), &line(&got))?;
                let told: Vec<i32> = numbers(lines.next());
                let at = told[0] as usize;
                wanted[at..at + told.len() - 1].copy_from_slice(&told[1..]);
                same(call, &line(&wanted), &line(&room))?;
            }
            "fill" => room.fill(numbers(rest)[0]),
            _ => panic!("no such call: {call}"),
        }
    }
    Ok(())
}

fn picks(told: &str) -> Picks {
    numbers(told).try_into().unwrap_or_else(|_| panic!("no five picks: {told}"))
}

fn play_picks(services: &Services, picks: Picks, case: &[&str]) -> Played {
    let mut lines = Lines(case.iter());
    let given = [(); 3].map(|_| words(lines.next()));
    let limits: Vec<u32> = numbers(lines.next());
    let mut room = vec![ROOM; limits[1] as usize];
    let got = (services.picked)(picks, [&given[0], &given[1], &given[2]], limits[0], &mut room)
        .unwrap_or_else(|| (services.match_words)(&given[0], &given[1], &given[2], limits[0], &mut room));
    same("the lines", "=", lines.next())?;
    same("numbers", lines.next(), &line(&got))?;
    let mut wanted = words(lines.next());
    same("words written", &wanted.len().to_string(), &got[4].to_string())?;
    wanted.resize(room.len(), ROOM);
    same("room", &line(&wanted), &line(&room))
}

/// The kind of a file, by the start of its name.
#[derive(Clone, Copy, PartialEq)]
pub enum Kind {
    Picks,
    Book,
    Run,
}

pub fn kind(name: &str) -> Option<Kind> {
    [("picks", Kind::Picks), ("book", Kind::Book), ("runs", Kind::Run)]
        .into_iter()
        .find(|(start, _)| name.starts_with(start))
        .map(|(_, kind)| kind)
}

/// Plays each case or script of a file: what was asked, and how it went; none, where the services have no such call.
pub fn file(services: &Services, kind: Kind, all: &str) -> Vec<(String, Option<Played>)> {
    let mut played = Vec::new();
    let mut script: Vec<&str> = Vec::new();
    for line in all.lines() {
        if line == "--" {
            let one = match kind {
                Kind::Picks => {
                    let picks = picks(script[0]);
                    (picks == PLAIN || services.takes(picks)).then(|| play_picks(services, picks, &script[1..]))
                }
                Kind::Book => services.book.as_ref().map(|book| play_book(book, &script)),
                Kind::Run => play_run(services, &script),
            };
            played.push((script.join("\n") + "\n", one));
            script.clear();
        } else if !(script.is_empty() && line.starts_with('#')) {
            script.push(line);
        }
    }
    played
}
