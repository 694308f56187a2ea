//! Random inputs, the same for the same seed: long and short, whole and damaged, budgets and rooms cut at random.

/// SplitMix64.
pub struct Random(pub u64);

impl Random {
    pub fn next(&mut self) -> u64 {
        self.0 = self.0.wrapping_add(0x9e37_79b9_7f4a_7c15);
        let mut z = self.0;
        z = (z ^ (z >> 30)).wrapping_mul(0xbf58_476d_1ce4_e5b9);
        z = (z ^ (z >> 27)).wrapping_mul(0x94d0_49bb_1331_11eb);
        z ^ (z >> 31)
    }

    /// A number below `n`.
    pub fn below(&mut self, n: u64) -> u64 {
        self.next() % n
    }

    /// True once in `n` times.
    pub fn once_in(&mut self, n: u64) -> bool {
        self.below(n) == 0
    }

    pub fn pick(&mut self, words: &[i32]) -> i32 {
        words[self.below(words.len() as u64) as usize]
    }
}

const EDGES: [i32; 6] = [i32::MIN, i32::MIN + 1, -1, i32::MAX - 1, i32::MAX, 64];

fn integer(r: &mut Random) -> i32 {
    if r.once_in(12) {
        r.pick(&EDGES)
    } else {
        r.below(4) as i32
    }
}

/// A matcher of the same shape: some lists are multisets now.
fn alike(r: &mut Random, matcher: &[i32]) -> Vec<i32> {
    let mut width = false;
    let mut one = |&word: &i32| {
        let tag = !width;
        width = tag && word == 4;
        if tag && word == 2 && r.once_in(3) {
            3
        } else {
            word
        }
    };
    matcher.iter().map(&mut one).collect()
}

/// Words of a matcher with so many levels on its longest path.
fn grow(r: &mut Random, levels: u64, words: &mut Vec<i32>) {
    if levels == 0 {
        words.push(r.pick(&[0, 1, 1, 1]));
        return;
    }
    let tag = r.pick(&[2, 3, 3, 4]);
    words.push(tag);
    if tag < 4 {
        return grow(r, levels - 1, words);
    }
    let width = r.pick(&[2, 2, 2, 3, 4]);
    words.push(width);
    let longest = r.below(width as u64) as i32;
    for part in 0..width {
        let first = words.len();
        let levels = if part == longest { levels - 1 } else { r.below(levels) };
        grow(r, levels, words);
        // Now and then a part of the same shape again.
        if part == longest && part + 1 < width && r.once_in(2) {
            let mut again = alike(r, &words[first..]);
            if again[0] == 4 && again[1] < 4 && r.once_in(4) {
                // The same and one part more: not of the same shape.
                again[1] += 1;
                again.push(1);
            }
            words.extend(again);
            return (part + 2..width).for_each(|_| grow(r, 0, words));
        }
    }
}

pub fn matcher(r: &mut Random) -> Vec<i32> {
    let levels = match r.below(12) {
        0..=3 => r.below(5),
        4 if r.once_in(4) => 5,
        _ => 1 + r.below(3),
    };
    let mut words = Vec::new();
    grow(r, levels, &mut words);
    words
}

/// Where the matcher at an index ends.
fn end(matcher: &[i32], m: usize) -> usize {
    match matcher[m] {
        2 | 3 => end(matcher, m + 1),
        4 => (0..matcher[m + 1]).fold(m + 2, |at, _| end(matcher, at)),
        _ => m + 1,
    }
}

/// The matcher at an index without the difference of list and multiset: -1 for either, and widths as they are.
fn shape(matcher: &[i32], m: usize) -> Vec<i32> {
    match matcher[m] {
        2 | 3 => [vec![-1], shape(matcher, m + 1)].concat(),
        4 => {
            let (mut words, mut part) = (vec![4, matcher[m + 1]], m + 2);
            for _ in 0..matcher[m + 1] {
                words.extend(shape(matcher, part));
                part = end(matcher, part);
            }
            words
        }
        bare => vec![bare],
    }
}

/// Makes a pattern that fits the matcher, or now and then just does not. `closed` inside an or or a not, where no variable may stand; `twofold` so
/// many ors one after the other are still to come, each with twice the ways.
struct Rule<'a> {
    matcher: &'a [i32],
    pattern: Vec<i32>,
    under: Vec<usize>,
    closed: bool,
    twofold: u64,
}

impl Rule<'_> {
    fn part(&mut self, r: &mut Random, m: usize, room: usize) {
        let tag = self.matcher[m];
        if room > 0 && r.once_in(6) {
            self.choices(r, m, room);
        } else if tag == 4 && room > 0 && !r.once_in(3) {
            self.tuple(r, m, room);
        } else if (tag == 2 || tag == 3) && room > 1 && !r.once_in(4) {
            let join = tag == 2 && r.once_in(3);
            self.pattern.push(if join { 6 } else { 5 });
            let first = 1 + r.below(room as u64 / 2) as usize;
            self.part(r, if join { m } else { m + 1 }, first);
            self.part(r, m, room - first);
        } else {
            self.leaf(r, m);
        }
    }

    /// An and, an or or a not.
    fn choices(&mut self, r: &mut Random, m: usize, room: usize) {
        let tag = r.pick(&[8, 8, 9, 9, 10]);
        self.pattern.push(tag);
        let closed = self.closed;
        self.closed |= tag != 8;
        let first = r.below(room as u64) as usize;
        if tag != 10 {
            self.part(r, m, first);
        }
        self.part(r, m, room - 1 - first);
        self.closed = closed;
    }

    fn tuple(&mut self, r: &mut Random, m: usize, room: usize) {
        let width = self.matcher[m + 1];
        let other = if r.once_in(80) { r.pick(&[1, 2, 3, 4, 5]) } else { width };
        self.pattern.extend([7, other]);
        let mut part = m + 2;
        for k in 0..other {
            let part_room = if k == 0 { room } else { r.below(room as u64 + 1) as usize };
            self.part(r, if k < width { part } else { m + 2 }, part_room);
            part = if k < width { end(self.matcher, part) } else { part };
        }
    }

    /// A variable of the same shape; now and then any, or a tuple of another shape.
    fn comparable(&self, r: &mut Random, m: usize) -> Option<usize> {
        let mine = shape(self.matcher, m);
        let (any, tuples) = (r.once_in(20), mine[0] == 4 && r.once_in(3));
        let alike = |&v: &usize| {
            let other = shape(self.matcher, self.under[v]);
            any || (!mine.contains(&0) && other == mine) || (tuples && other[0] == 4 && other != mine)
        };
        let alike: Vec<usize> = (0..self.under.len()).filter(alike).collect();
        (!alike.is_empty()).then(|| alike[r.below(alike.len() as u64) as usize])
    }

    fn leaf(&mut self, r: &mut Random, m: usize) {
        let tag = self.matcher[m];
        for _ in 0..std::mem::take(&mut self.twofold) {
            self.pattern.extend([8, 9, 0, 0]);
        }
        match (r.below(7), self.comparable(r, m)) {
            (0, _) | (1, _) if (self.under.len() < 16 || r.once_in(8)) && (!self.closed || r.once_in(60)) => {
                self.pattern.extend([1, self.under.len() as i32]);
                self.under.push(m);
            }
            (2..=4, Some(v)) => {
                let c = if tag != 1 && !r.once_in(40) { 0 } else { r.pick(&[0, 0, 0, 1, -1, i32::MAX, i32::MIN]) };
                self.pattern.extend([3, v as i32, c]);
            }
            (5, _) if tag == 2 || tag == 3 => self.pattern.push(4),
            (5, _) if tag == 1 => self.pattern.extend([2, integer(r)]),
            _ => self.pattern.push(0),
        }
    }
}

pub fn pattern(r: &mut Random, matcher: &[i32]) -> Vec<i32> {
    let twofold = if r.once_in(25) { 1 + r.below(50) } else { 0 };
    let mut rule = Rule { matcher, pattern: Vec::new(), under: Vec::new(), closed: false, twofold };
    let room = if r.once_in(20) { 100 } else { 1 + r.below(9) as usize };
    rule.part(r, 0, room);
    rule.pattern
}

/// Makes a target that fits the matcher, or now and then just does not.
struct Units<'a> {
    matcher: &'a [i32],
    words: Vec<i32>,
}

impl Units<'_> {
    fn value(&mut self, r: &mut Random, m: usize, depth: usize, long: bool) {
        let tag = self.matcher[m];
        let form = match tag {
            0 if depth > 0 && r.once_in(4) => r.pick(&[1, 1, 2]),
            0 | 1 => 0,
            2 | 3 => 1,
            _ => 2,
        };
        let form = if r.once_in(400) { r.pick(&[0, 1, 2]) } else { form };
        match form {
            0 => self.words.extend([0, integer(r)]),
            1 => self.collection(r, m, depth, long),
            _ => self.tuple(r, m, depth, long),
        }
    }

    /// Once in so many times another integer at the end of what was written, so that values differ in their last part only.
    fn change(&mut self, r: &mut Random, once_in: u64) {
        if let [.., 0, last] = &mut self.words[..] {
            if r.once_in(once_in) {
                *last = integer(r);
            }
        }
    }

    /// The matcher of what stands inside a value, or the same where a value does not fit.
    fn inside(&self, m: usize) -> usize {
        match self.matcher[m] {
            2 | 3 => m + 1,
            4 => m + 2,
            _ => m,
        }
    }

    fn collection(&mut self, r: &mut Random, m: usize, depth: usize, long: bool) {
        let count = if long && r.once_in(2) { r.below(65) } else { r.below(5) };
        let count = if self.words.len() > 800 { 0 } else { count };
        self.words.extend([1, count as i32]);
        // Now and then the same element again, so that equal units stand in different places.
        let first = self.words.len();
        for k in 0..count {
            let again = self.words[first..].to_vec();
            if k == 1 && self.words.len() + again.len() < 900 && r.once_in(2) {
                self.words.extend(again);
                self.change(r, 3);
            } else {
                self.value(r, self.inside(m), depth.saturating_sub(1), long && count < 9);
            }
        }
    }

    fn tuple(&mut self, r: &mut Random, m: usize, depth: usize, long: bool) {
        let wide = self.matcher[m] == 4;
        let width = if wide && !r.once_in(200) { self.matcher[m + 1] } else { r.pick(&[2, 2, 3, 4]) };
        self.words.extend([2, width]);
        let (mut part, mut before) = (self.inside(m), None);
        for k in 0..width {
            let first = self.words.len();
            // Now and then the part before again, in order or turned round.
            match before {
                Some((from, of))
                    if first < 900 && shape(self.matcher, of) == shape(self.matcher, part) && r.once_in(2) =>
                {
                    let again = turned(r, &self.words[from..first]);
                    self.words.extend(again);
                    self.change(r, 6);
                }
                _ => self.value(r, part, depth.saturating_sub(1), long),
            }
            before = Some((first, part));
            part = if wide && k + 1 < self.matcher[m + 1] { end(self.matcher, part) } else { part };
        }
    }
}

/// A collection with its elements in order, or from the last to the first; another value as it is.
fn turned(r: &mut Random, words: &[i32]) -> Vec<i32> {
    if words[0] != 1 || r.once_in(2) {
        return words.to_vec();
    }
    let (mut at, mut elements) = (2, Vec::new());
    while at < words.len() {
        let (mut to, mut left) = (at, 1);
        while left > 0 {
            left += if words[to] == 0 { 0 } else { words[to + 1] } - 1;
            to += 2;
        }
        elements.push(&words[at..to]);
        at = to;
    }
    elements.reverse();
    [&words[..2], &elements.concat()].concat()
}

pub fn target(r: &mut Random, matcher: &[i32]) -> Vec<i32> {
    let long = r.once_in(6);
    let mut units = Units { matcher, words: Vec::new() };
    // Now and then deep: collections of one, and pairs.
    let deep = if r.once_in(60) { 5 + r.below(5) } else { 0 };
    let mut pairs = 0;
    for _ in 0..deep {
        let pair = r.once_in(3);
        units.words.extend(if pair { [2, 2] } else { [1, 1] });
        pairs += usize::from(pair);
    }
    units.value(r, 0, 8, long);
    for _ in 0..pairs {
        units.words.extend([0, 0]);
    }
    units.words
}

/// One wrong word, one too many, one too few, the end cut off, or far too long.
pub fn damage(r: &mut Random, words: &mut Vec<i32>) {
    let at = r.below(words.len() as u64 + 1) as usize;
    let word = if r.once_in(3) { r.pick(&[65, 11, -1, i32::MIN, i32::MAX]) } else { r.below(11) as i32 };
    match r.below(6) {
        0 => words.insert(at, word),
        1 => words.truncate(at),
        2 if at < words.len() => {
            words.remove(at);
        }
        3 if r.once_in(8) => words.resize(r.pick(&[63, 64, 65, 256, 257, 1023, 1024, 1025, 1026]) as usize, word),
        4 => words.push(word),
        _ if at < words.len() => words[at] = word,
        _ => {}
    }
}

/// Damage of one of the kinds that a target's causes tell apart: its length, a tag, a count, a depth, its end, more words, a tuple's width; and now and
/// then only nearly so. (Tags stand at even places.)
pub fn damage_units(r: &mut Random, words: &mut Vec<i32>) {
    let at = 2 * r.below(words.len() as u64 / 2 + 1) as usize;
    let behind = (at + 2).min(words.len());
    match r.below(7) {
        0 => words.resize(r.pick(&[1024, 1025, 1026, 1500, 2000]) as usize, r.pick(&[0, 1, 9])),
        1 => drop(words.splice(at..behind, [r.pick(&[2, 3, 4, -1, i32::MIN, i32::MAX]), r.below(3) as i32])),
        2 => drop(words.splice(at..behind, [1, r.pick(&[64, 65, 66, -1, i32::MIN, i32::MAX])])),
        3 => drop(words.splice(at..at, [1, 1].repeat(6 + r.below(4) as usize))),
        4 => words.truncate(r.below(words.len() as u64 + 1) as usize),
        5 => words.extend([r.pick(&[0, 1, 2, 9, -1]), 0, 0].iter().take(1 + r.below(3) as usize)),
        _ => drop(words.splice(at..behind, [2, r.pick(&[0, 1, 2, 4, 5, -1, i32::MIN, i32::MAX])])),
    }
}
