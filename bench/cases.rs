//! Runs case files: the trial program's, review's, the published examples, and those with picks and scripts. A file's name says its kind.

use crate::scripts::{self, Picks, BY_ROUNDS, PLAIN};
use crate::{text, Services};
use std::path::Path;

pub struct Count {
    pub cases: usize,
    pub differ: usize,
    /// Not played, since the services have no such call.
    pub left: usize,
}

impl Count {
    fn see(&mut self, what: &str, input: &[u8], expected: &str, got: &str) {
        self.cases += 1;
        if expected != got {
            self.differ += 1;
            println!("{what}: case {} differs", self.cases);
            println!("{}=\n{expected}-- but got\n{got}", String::from_utf8_lossy(input));
        }
    }
}

/// The cases of a file: input, and what is expected. A line `=!` says that the newline before it is no part of the input.
fn blocks(bytes: &[u8]) -> Vec<(Vec<u8>, String)> {
    let (mut cases, mut input, mut expected, mut reading) = (Vec::new(), Vec::new(), Vec::new(), true);
    for line in bytes.split_inclusive(|&b| b == b'\n') {
        match (reading, line) {
            (true, b"=\n") => reading = false,
            (true, b"=!\n") => {
                input.pop();
                reading = false;
            }
            (false, b"--\n") => {
                cases.push((std::mem::take(&mut input), String::from_utf8(std::mem::take(&mut expected)).unwrap()));
                reading = true;
            }
            (true, _) => input.extend_from_slice(line),
            (false, _) => expected.extend_from_slice(line),
        }
    }
    cases
}

/// Matcher, pattern and cap; from No. 13 on the dialect before them. None, where no review takes a dialect.
fn review(services: &Services, input: &[u8]) -> Option<String> {
    let lines: Vec<Vec<i32>> =
        input.strip_suffix(b"\n").unwrap().split(|&b| b == b'\n').map(|line| text::words(line).unwrap()).collect();
    let [answer, place, count] = match &lines[..] {
        [dialect, matcher, pattern, cap] => {
            (services.review_with?)(dialect[0] as u32, matcher, pattern, cap[0])
        }
        [matcher, pattern, cap] => (services.review)(matcher, pattern, cap[0]),
        _ => panic!("a review has three lines, or four"),
    };
    Some(format!("{answer} {place} {count}\n"))
}

/// Whether rows are as a published block wants them: `how` is its weakening line.
fn agrees(how: &str, wanted: &[&str], rows: &[String]) -> bool {
    let sorted = |rows: &mut Vec<&str>| rows.sort_unstable();
    let mut got: Vec<&str> = rows.iter().map(String::as_str).collect();
    match how {
        "rows-as-multiset" => {
            let mut wanted = wanted.to_vec();
            sorted(&mut wanted);
            sorted(&mut got);
            wanted == got
        }
        "rows-prefix" => got.starts_with(wanted),
        "rows-nonempty" => !got.is_empty(),
        "rows-contain" => wanted.iter().all(|row| got.contains(row)),
        _ => wanted == got,
    }
}

/// Each block after the line of what it needs: with No. 10 it is played by rounds.
fn published(services: &Services, text: &str, count: &mut Count) {
    let mut picks = PLAIN;
    let mut block: Vec<&str> = Vec::new();
    for line in text.lines() {
        if let Some(needs) = line.strip_prefix("# needs: ") {
            picks = if needs.split(',').any(|no| no == "10") { BY_ROUNDS } else { PLAIN };
        } else if line == "--" {
            match picks == PLAIN || services.takes(picks) {
                true => published_block(services, picks, &block, count),
                false => count.left += 1,
            }
            block.clear();
        } else if !line.starts_with('#') && !(block.is_empty() && line.is_empty()) {
            block.push(line);
        }
    }
}

fn published_block(services: &Services, picks: Picks, block: &[&str], count: &mut Count) {
    let input = block[..4].join("\n") + "\n";
    let (how, wanted) = match &block[5..] {
        [how, rows @ ..] if how.starts_with("rows-") => (*how, rows),
        rows => ("", rows),
    };
    let q = text::question(input.as_bytes()).unwrap();
    let (numbers, rows) = text::answered(services, picks, &q);
    let rows: Vec<String> =
        rows.iter().map(|row| row.iter().map(i32::to_string).collect::<Vec<_>>().join(" ")).collect();
    let good = numbers[0] == 0 && agrees(how, wanted, &rows);
    let expected = format!("{how}\n{}\n", wanted.join("\n"));
    let got = if good { expected.clone() } else { format!("{numbers:?}\n{}\n", rows.join("\n")) };
    count.see("published", input.as_bytes(), &expected, &got);
}

/// A review file with what the services answer in place of what it expects.
pub fn recounted(services: &Services, path: &str) -> Vec<u8> {
    let bytes = std::fs::read(path).unwrap_or_else(|e| panic!("{path}: {e}"));
    let each = |(input, _): (Vec<u8>, String)| {
        let told = review(services, &input).expect("no review takes a dialect");
        [&input[..], b"=\n", told.as_bytes(), b"--\n"].concat()
    };
    blocks(&bytes).into_iter().flat_map(each).collect()
}

pub fn file(services: &Services, path: &str, count: &mut Count) {
    let bytes = std::fs::read(path).unwrap_or_else(|e| panic!("{path}: {e}"));
    match Path::new(path).file_name().and_then(|name| name.to_str()) {
        Some(name) if scripts::kind(name).is_some() => {
            for (asked, went) in
                scripts::file(services, scripts::kind(name).unwrap(), std::str::from_utf8(&bytes).unwrap())
            {
                match went {
                    Some(went) => count.see(path, asked.as_bytes(), "", &went.err().unwrap_or_default()),
                    None => count.left += 1,
                }
            }
        }
        Some("published.txt") => published(services, std::str::from_utf8(&bytes).unwrap(), count),
        Some(name) if name.contains("review") => {
            for (input, expected) in blocks(&bytes) {
                match review(services, &input) {
                    Some(told) => count.see(path, &input, &expected, &told),
                    None => count.left += 1,
                }
            }
        }
        _ => {
            for (input, expected) in blocks(&bytes) {
                count.see(path, &input, &expected, &text::printed(services, &input));
            }
        }
    }
}
