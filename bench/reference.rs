//! Document 01, with the requests No. 1 to 3, 5 to 10, 12 and 13 of document 02, by plain recursion on the words, as a good Rust engineer would write it: no tree, no heap.
//! It knows nothing of the library and nothing of the proofs.

pub mod book;
mod rounds;
pub mod run;
pub mod tuned;

/// Match's six numbers: answer, place, rows, steps, words written, cause.
pub type Matched = [u64; 6];

/// Review's three numbers: answer, place, count.
pub type Reviewed = [u64; 3];

/// Where a form ends, or the place of the first word at fault.
type Read = Result<usize, usize>;

const SOMETHING: i32 = 0;
const INTEGER: i32 = 1;
const LIST: i32 = 2;
const MULTISET: i32 = 3;
const TUPLE_OF: i32 = 4;

const WILDCARD: i32 = 0;
const VARIABLE: i32 = 1;
const CONSTANT: i32 = 2;
const VALUE: i32 = 3;
const NIL: i32 = 4;
const CONS: i32 = 5;
const JOIN: i32 = 6;
const TUPLE: i32 = 7;
const AND: i32 = 8;
const OR: i32 = 9;
const NOT: i32 = 10;

// ---- The tests 1 to 6.

fn whole(words: &[i32], end: usize) -> Result<(), usize> {
    if end < words.len() {
        Err(end)
    } else {
        Ok(())
    }
}

/// The width of a tuple, which stands behind its tag; or the place of a wrong or a missing one.
fn width(words: &[i32], at: usize) -> Result<usize, usize> {
    match words.get(at) {
        Some(&k @ 2..=4) => Ok(k as usize),
        _ => Err(at),
    }
}

/// Where the matcher ends whose tag stands at an index of the matcher's words.
type MatcherEnds = [u8; 64];

fn matcher_at(words: &[i32], at: usize, left: usize, ends: &mut MatcherEnds) -> Read {
    let end = match words.get(at) {
        Some(&SOMETHING) | Some(&INTEGER) => at + 1,
        Some(&LIST) | Some(&MULTISET) if left > 0 => matcher_at(words, at + 1, left - 1, ends)?,
        Some(&TUPLE_OF) if left > 0 => {
            let mut end = at + 2;
            for _ in 0..width(words, at + 1)? {
                end = matcher_at(words, end, left - 1, ends)?;
            }
            end
        }
        _ => return Err(at),
    };
    ends[at] = end as u8;
    Ok(end)
}

fn read_matcher(words: &[i32], ends: &mut MatcherEnds) -> Result<(), usize> {
    if words.len() > 64 {
        return Err(64);
    }
    whole(words, matcher_at(words, 0, 4, ends)?)
}

/// How many words follow a pattern's tag as its operands.
fn operands(tag: i32) -> usize {
    match tag {
        VARIABLE | CONSTANT | TUPLE => 1,
        VALUE => 2,
        _ => 0,
    }
}

fn read_part(words: &[i32], at: usize, ends: &mut Ends) -> Read {
    let end = match words.get(at) {
        Some(&tag @ WILDCARD..=NIL) => {
            let end = at + 1 + operands(tag);
            if end > words.len() {
                return Err(words.len());
            }
            end
        }
        Some(&NOT) => read_part(words, at + 1, ends)?,
        Some(&CONS) | Some(&JOIN) | Some(&AND) | Some(&OR) => {
            let middle = read_part(words, at + 1, ends)?;
            read_part(words, middle, ends)?
        }
        Some(&TUPLE) => {
            let mut end = at + 2;
            for _ in 0..width(words, at + 1)? {
                end = read_part(words, end, ends)?;
            }
            end
        }
        _ => return Err(at),
    };
    ends[at] = end as u16;
    Ok(end)
}

/// Where the part ends whose tag stands at an index of the pattern.
type Ends = [u16; 256];

fn read_pattern(words: &[i32], ends: &mut Ends) -> Result<(), usize> {
    if words.len() > 256 {
        return Err(256);
    }
    whole(words, read_part(words, 0, ends)?)
}

/// How many variables a whole pattern has, or the tag that breaks a rule. Before `closed` an or or a not has not ended.
fn count_variables(words: &[i32], ends: &Ends) -> Result<usize, usize> {
    let (mut at, mut next, mut closed) = (0, 0, 0);
    while at < words.len() {
        match words[at] {
            OR | NOT => closed = closed.max(ends[at] as usize),
            VARIABLE if at < closed || words[at + 1] != next || next > 15 => return Err(at),
            VARIABLE => next += 1,
            VALUE if words[at + 1] < 0 || words[at + 1] >= next => return Err(at),
            _ => {}
        }
        at += 1 + operands(words[at]);
    }
    Ok(next as usize)
}

fn takes(matcher: i32, tag: i32) -> bool {
    match matcher {
        _ if tag >= AND => true,
        SOMETHING => tag <= VARIABLE,
        INTEGER => tag <= VALUE,
        LIST => tag != CONSTANT && tag != TUPLE,
        MULTISET => tag != CONSTANT && tag != JOIN && tag != TUPLE,
        _ => tag <= VARIABLE || tag == VALUE || tag == TUPLE,
    }
}

/// A rule in test: its words, its dialect, and under which index of the matcher each variable stands.
struct Fitting<'a> {
    matcher: &'a [i32],
    matcher_ends: &'a MatcherEnds,
    pattern: &'a [i32],
    dialect: u32,
    under: [usize; 16],
}

impl Fitting<'_> {
    /// Whether the matchers at `m` and `n` are of the same shape, list and multiset counting alike.
    fn alike(&self, m: usize, n: usize) -> bool {
        let collection = |tag| tag == LIST || tag == MULTISET;
        let (one, other) = (self.matcher[m], self.matcher[n]);
        if collection(one) && collection(other) {
            return self.alike(m + 1, n + 1);
        }
        if one != TUPLE_OF || other != TUPLE_OF {
            return one == other;
        }
        let (mut x, mut y) = (m + 2, n + 2);
        self.matcher[m + 1] == self.matcher[n + 1]
            && (0..self.matcher[m + 1]).all(|_| {
                let same = self.alike(x, y);
                x = self.matcher_ends[x] as usize;
                y = self.matcher_ends[y] as usize;
                same
            })
    }

    /// Whether something does not occur in the matcher at `m`. (No width is 0.)
    fn solid(&self, m: usize) -> bool {
        !self.matcher[m..self.matcher_ends[m] as usize].contains(&SOMETHING)
    }

    /// Tests the part whose tag stands at `at` under the matcher whose tag stands at `m`.
    fn part(&mut self, at: usize, m: usize) -> Read {
        let (matcher, tag) = (self.matcher[m], self.pattern[at]);
        if !takes(matcher, tag) {
            return Err(at);
        }
        match tag {
            VARIABLE => self.under[self.pattern[at + 1] as usize] = m,
            VALUE => {
                let alike = self.alike(self.under[self.pattern[at + 1] as usize], m);
                let plain = matcher == INTEGER || self.pattern[at + 2] == 0;
                if !(self.solid(m) && alike && plain) {
                    return Err(at);
                }
            }
            CONS => {
                // In dialect 2 the elements of a multiset must be such as can be told apart.
                if self.dialect == 2 && matcher == MULTISET && !self.solid(m + 1) {
                    return Err(at);
                }
                let middle = self.part(at + 1, m + 1)?;
                return self.part(middle, m);
            }
            JOIN | AND | OR => {
                let middle = self.part(at + 1, m)?;
                return self.part(middle, m);
            }
            NOT => return self.part(at + 1, m),
            TUPLE => {
                if self.pattern[at + 1] != self.matcher[m + 1] {
                    return Err(at);
                }
                let (mut end, mut under) = (at + 2, m + 2);
                for _ in 0..self.pattern[at + 1] {
                    end = self.part(end, under)?;
                    under = self.matcher_ends[under] as usize;
                }
                return Ok(end);
            }
            _ => {}
        }
        Ok(at + 1 + operands(tag))
    }
}

/// What is wrong with a target, in document 02's order: No. 6.
#[derive(Clone, Copy)]
enum Cause {
    OverLength = 1,
    UnknownTag,
    Count,
    TooDeep,
    CutShort,
    LeftOver,
    Width,
}

/// Where a value ends, or the place of the first word at fault and what is wrong there.
type ReadUnits = Result<usize, (usize, Cause)>;

/// The count or the width behind a tag, from `least` to `most`; else it is missing, or it is at fault itself.
fn size_at(words: &[i32], at: usize, least: i32, most: i32, fault: Cause) -> ReadUnits {
    match words.get(at) {
        None => Err((at, Cause::CutShort)),
        Some(&size) if size < least || size > most => Err((at, fault)),
        Some(&size) => Ok(size as usize),
    }
}

/// Where the elements of each collection stand, and where each value ends, by the index of its tag. (At most 512 elements have been read, and at
/// most eight collections with 64 each are still being read.)
struct Places {
    first: [u16; 1024],
    end: [u16; 1024],
    elements: [u16; 1024],
    used: usize,
}

impl Places {
    fn new() -> Self {
        Places { first: [0; 1024], end: [0; 1024], elements: [0; 1024], used: 0 }
    }

    /// An element of a collection, most often an integer: these are read at once.
    #[inline]
    fn element(&mut self, words: &[i32], at: usize, depth: usize) -> ReadUnits {
        if at + 1 < words.len() && words[at] == 0 {
            self.end[at] = at as u16 + 2;
            return Ok(at + 2);
        }
        self.value(words, at, depth)
    }

    fn value(&mut self, words: &[i32], at: usize, depth: usize) -> ReadUnits {
        let end = match words.get(at) {
            None => return Err((at, Cause::CutShort)),
            Some(0) if at + 1 < words.len() => at + 2,
            Some(0) => return Err((at + 1, Cause::CutShort)),
            Some(1) | Some(2) if depth == 0 => return Err((at, Cause::TooDeep)),
            Some(1) => {
                let count = size_at(words, at + 1, 0, 64, Cause::Count)?;
                let first = self.used;
                self.first[at] = first as u16;
                let mut end = at + 2;
                self.used += count;
                for k in 0..count {
                    self.elements[first + k] = end as u16;
                    end = self.element(words, end, depth - 1)?;
                }
                end
            }
            Some(2) => {
                let mut end = at + 2;
                for _ in 0..size_at(words, at + 1, 2, 4, Cause::Width)? {
                    end = self.value(words, end, depth - 1)?;
                }
                end
            }
            Some(_) => return Err((at, Cause::UnknownTag)),
        };
        self.end[at] = end as u16;
        Ok(end)
    }
}

fn read_target(words: &[i32], places: &mut Places) -> Result<(), (usize, Cause)> {
    if words.len() > 1024 {
        return Err((1024, Cause::OverLength));
    }
    let end = places.value(words, 0, 8)?;
    whole(words, end).map_err(|place| (place, Cause::LeftOver))
}

/// A matcher and a target, and where the parts of each end.
#[derive(Clone, Copy)]
struct Forms<'a> {
    matcher: &'a [i32],
    matcher_ends: &'a MatcherEnds,
    target: &'a [i32],
    places: &'a Places,
}

fn fits_value(r: Forms, m: usize, at: usize) -> Result<(), usize> {
    match (r.matcher[m], r.target[at]) {
        (SOMETHING, _) | (INTEGER, 0) => Ok(()),
        (LIST, 1) | (MULTISET, 1) => {
            let mut element = at + 2;
            for _ in 0..r.target[at + 1] {
                if r.matcher[m + 1] != INTEGER || r.target[element] != 0 {
                    fits_value(r, m + 1, element)?;
                }
                element = r.places.end[element] as usize;
            }
            Ok(())
        }
        (TUPLE_OF, 2) if r.matcher[m + 1] == r.target[at + 1] => {
            let (mut under, mut part) = (m + 2, at + 2);
            for _ in 0..r.target[at + 1] {
                fits_value(r, under, part)?;
                under = r.matcher_ends[under] as usize;
                part = r.places.end[part] as usize;
            }
            Ok(())
        }
        _ => Err(at),
    }
}

// ---- The search.

/// A value of the target, or what is left of a collection: the index of its tag, and a mark for each element that is left.
#[derive(Clone, Copy)]
struct Held {
    at: usize,
    marks: u64,
}

fn first_marks(n: u32) -> u64 {
    if n < 64 {
        (1 << n) - 1
    } else {
        !0
    }
}

/// Why a search ends before its last state: the run's, or with its first row the one inside a not; by rounds also the table.
enum Stop {
    Budget,
    Full,
    Found,
    Table,
}

/// An atom, and the older atoms behind it.
struct Atom<'a> {
    pattern: usize,
    matcher: usize,
    value: Held,
    older: Option<&'a Atom<'a>>,
}

struct Search<'a> {
    matcher: &'a [i32],
    matcher_ends: &'a MatcherEnds,
    pattern: &'a [i32],
    target: &'a [i32],
    ends: &'a Ends,
    places: &'a Places,
    variables: usize,
    budget: u32,
    room: &'a mut [i32],
    bound: [Held; 16],
    inside: bool,
    /// Rows in form 2.
    origins: bool,
    /// Dialect 2.
    once: bool,
    rows: u32,
    steps: u32,
    words: usize,
}

impl Search<'_> {
    fn whole(&self, at: usize) -> Held {
        let marks = if self.target[at] == 1 { first_marks(self.target[at + 1] as u32) } else { 0 };
        Held { at, marks }
    }

    fn element(&self, held: Held, k: u32) -> usize {
        self.places.elements[self.places.first[held.at] as usize + k as usize] as usize
    }

    fn is_collection(&self, held: Held) -> bool {
        self.target[held.at] == 1
    }

    /// Takes up a state, with all that comes from it. `Err` ends the run.
    fn take_up(&mut self, state: Option<&Atom>) -> Result<(), Stop> {
        let mut state = state;
        loop {
            self.step()?;
            let atom = match state {
                Some(atom) => atom,
                None if self.inside => return Err(Stop::Found),
                None => return self.row(),
            };
            let (value, under) = (atom.value, self.matcher[atom.matcher]);
            let first = atom.pattern + 1;
            match self.pattern[atom.pattern] {
                WILDCARD => {
                    if under != SOMETHING {
                        self.step()?;
                    }
                }
                VARIABLE => {
                    if under != SOMETHING {
                        self.step()?;
                    }
                    self.bound[self.pattern[first] as usize] = value;
                }
                CONSTANT => {
                    if self.is_collection(value) || self.target[value.at + 1] != self.pattern[first] {
                        return Ok(());
                    }
                }
                VALUE => {
                    let other = self.bound[self.pattern[first] as usize];
                    if !self.equal(atom.matcher, other, self.pattern[first + 1], value) {
                        return Ok(());
                    }
                }
                NIL => {
                    if !self.is_collection(value) || value.marks != 0 {
                        return Ok(());
                    }
                }
                CONS if under == LIST => {
                    if value.marks == 0 {
                        return Ok(());
                    }
                    let k = value.marks.trailing_zeros();
                    return self.cons(atom, k);
                }
                CONS => {
                    let mut left = self.choices(atom);
                    while left != 0 {
                        self.cons(atom, left.trailing_zeros())?;
                        left &= left - 1;
                    }
                    return Ok(());
                }
                JOIN => return self.join(atom),
                TUPLE => return self.tuple(atom),
                AND => return self.both(atom),
                OR => return self.either(atom),
                _ => {
                    if self.finds(atom)? {
                        return Ok(());
                    }
                }
            }
            state = atom.older;
        }
    }

    /// One state follows, with both parts on the same value.
    #[inline(never)]
    fn both(&mut self, atom: &Atom) -> Result<(), Stop> {
        let first = atom.pattern + 1;
        let second = Atom { pattern: self.ends[first] as usize, ..*atom };
        self.take_up(Some(&Atom { pattern: first, older: Some(&second), ..*atom }))
    }

    /// Two states follow, one for each side.
    #[inline(never)]
    fn either(&mut self, atom: &Atom) -> Result<(), Stop> {
        let first = atom.pattern + 1;
        self.take_up(Some(&Atom { pattern: first, ..*atom }))?;
        self.take_up(Some(&Atom { pattern: self.ends[first] as usize, ..*atom }))
    }

    /// The search inside a not: whether it finds a row. Nothing in it binds.
    #[inline(never)]
    fn finds(&mut self, atom: &Atom) -> Result<bool, Stop> {
        let outer = std::mem::replace(&mut self.inside, true);
        let ended = self.take_up(Some(&Atom { pattern: atom.pattern + 1, older: None, ..*atom }));
        self.inside = outer;
        match ended {
            Ok(()) => Ok(false),
            Err(Stop::Found) => Ok(true),
            Err(stop) => Err(stop),
        }
    }

    fn step(&mut self) -> Result<(), Stop> {
        if self.steps == self.budget {
            return Err(Stop::Budget);
        }
        self.steps += 1;
        Ok(())
    }

    /// The elements that a cons under a multiset may take: all that are left, or in dialect 2 those to which none left before them is equal.
    #[inline]
    fn choices(&self, atom: &Atom) -> u64 {
        if self.once {
            self.first_places(atom.matcher + 1, atom.value)
        } else {
            atom.value.marks
        }
    }

    #[inline(never)]
    fn first_places(&self, m: usize, value: Held) -> u64 {
        let mut firsts: u64 = 0;
        let mut left = value.marks;
        while left != 0 {
            let one = self.whole(self.element(value, left.trailing_zeros()));
            let mut before = firsts;
            while before != 0 && !self.equal(m, self.whole(self.element(value, before.trailing_zeros())), 0, one) {
                before &= before - 1;
            }
            if before == 0 {
                firsts |= left & left.wrapping_neg();
            }
            left &= left - 1;
        }
        firsts
    }

    fn cons(&mut self, atom: &Atom, k: u32) -> Result<(), Stop> {
        let value = atom.value;
        let first = atom.pattern + 1;
        let rest = Atom {
            pattern: self.ends[first] as usize,
            matcher: atom.matcher,
            value: Held { at: value.at, marks: value.marks & !(1 << k) },
            older: atom.older,
        };
        let one = Atom {
            pattern: first,
            matcher: atom.matcher + 1,
            value: self.whole(self.element(value, k)),
            older: Some(&rest),
        };
        self.take_up(Some(&one))
    }

    fn join(&mut self, atom: &Atom) -> Result<(), Stop> {
        let value = atom.value;
        let first = atom.pattern + 1;
        let mut back = value.marks;
        loop {
            let behind = Atom {
                pattern: self.ends[first] as usize,
                matcher: atom.matcher,
                value: Held { at: value.at, marks: back },
                older: atom.older,
            };
            let before = Atom {
                pattern: first,
                matcher: atom.matcher,
                value: Held { at: value.at, marks: value.marks & !back },
                older: Some(&behind),
            };
            self.take_up(Some(&before))?;
            if back == 0 {
                return Ok(());
            }
            back &= back - 1;
        }
    }

    /// One state follows, with the parts in order.
    fn tuple(&mut self, atom: &Atom) -> Result<(), Stop> {
        let k = self.pattern[atom.pattern + 1] as usize;
        let mut parts = [(atom.pattern + 2, atom.matcher + 2, atom.value.at + 2); 4];
        for i in 1..k {
            let (pattern, matcher, value) = parts[i - 1];
            parts[i] =
                (self.ends[pattern] as usize, self.matcher_ends[matcher] as usize, self.places.end[value] as usize);
        }
        self.parts(&parts[..k], atom.older)
    }

    /// Puts parts of a tuple before older atoms, the last part first, and takes up the state.
    fn parts(&mut self, parts: &[(usize, usize, usize)], older: Option<&Atom>) -> Result<(), Stop> {
        match parts {
            [] => self.take_up(older),
            [before @ .., (pattern, matcher, value)] => {
                let value = self.whole(*value);
                self.parts(before, Some(&Atom { pattern: *pattern, matcher: *matcher, value, older }))
            }
        }
    }

    /// Whether x, plus c if it is an integer, equals y under the matcher at m.
    #[inline]
    fn equal(&self, m: usize, x: Held, c: i32, y: Held) -> bool {
        match self.matcher[m] {
            INTEGER => self.target[x.at + 1].checked_add(c) == Some(self.target[y.at + 1]),
            LIST => self.in_order(m + 1, x, y),
            MULTISET => self.paired_off(m + 1, x, y),
            _ => self.part_by_part(m, x, y),
        }
    }

    /// Two tuples of one width.
    #[inline(never)]
    fn part_by_part(&self, m: usize, x: Held, y: Held) -> bool {
        let (mut m, mut a, mut b) = (m + 2, x.at + 2, y.at + 2);
        for _ in 0..self.target[x.at + 1] {
            if !self.equal(m, self.whole(a), 0, self.whole(b)) {
                return false;
            }
            m = self.matcher_ends[m] as usize;
            a = self.places.end[a] as usize;
            b = self.places.end[b] as usize;
        }
        true
    }

    #[inline(never)]
    fn in_order(&self, m: usize, x: Held, y: Held) -> bool {
        let (mut a, mut b) = (x.marks, y.marks);
        while a != 0 && b != 0 {
            let v = self.whole(self.element(x, a.trailing_zeros()));
            let w = self.whole(self.element(y, b.trailing_zeros()));
            if !self.equal(m, v, 0, w) {
                return false;
            }
            a &= a - 1;
            b &= b - 1;
        }
        a == b
    }

    /// Equality is an equivalence, so that the first equal element will do.
    #[inline(never)]
    fn paired_off(&self, m: usize, x: Held, y: Held) -> bool {
        let (mut a, mut b) = (x.marks, y.marks);
        if a.count_ones() != b.count_ones() {
            return false;
        }
        while a != 0 {
            let v = self.whole(self.element(x, a.trailing_zeros()));
            let mut others = b;
            loop {
                if others == 0 {
                    return false;
                }
                let k = others.trailing_zeros();
                if self.equal(m, v, 0, self.whole(self.element(y, k))) {
                    b &= !(1 << k);
                    break;
                }
                others &= others - 1;
            }
            a &= a - 1;
        }
        true
    }

    fn size(&self, held: Held) -> usize {
        if !self.is_collection(held) {
            return self.places.end[held.at] as usize - held.at;
        }
        let mut size = 2;
        let mut left = held.marks;
        while left != 0 {
            let element = self.element(held, left.trailing_zeros());
            size += self.places.end[element] as usize - element;
            left &= left - 1;
        }
        size
    }

    fn row(&mut self) -> Result<(), Stop> {
        let size: usize = match self.origins {
            true => 3 * self.variables,
            false => self.bound[..self.variables].iter().map(|&held| self.size(held)).sum(),
        };
        if size > self.room.len() - self.words {
            return Err(Stop::Full);
        }
        for v in 0..self.variables {
            match self.origins {
                true => self.write_origin(self.bound[v]),
                false => self.write(self.bound[v]),
            }
        }
        self.rows += 1;
        Ok(())
    }

    fn write(&mut self, held: Held) {
        if !self.is_collection(held) {
            return self.copy(held.at);
        }
        self.room[self.words] = 1;
        self.room[self.words + 1] = held.marks.count_ones() as i32;
        self.words += 2;
        let mut left = held.marks;
        while left != 0 {
            self.copy(self.element(held, left.trailing_zeros()));
            left &= left - 1;
        }
    }

    /// Row form 2: the index, then the marks in two words, low half first; no marks of an integer or a tuple.
    fn write_origin(&mut self, held: Held) {
        let marks = if self.is_collection(held) { held.marks } else { 0 };
        for word in [held.at as i32, marks as i32, (marks >> 32) as i32] {
            self.room[self.words] = word;
            self.words += 1;
        }
    }

    /// Match's numbers when the search has ended.
    fn numbers(&self, ended: Result<(), Stop>) -> Matched {
        let answer = match ended {
            Ok(()) => 0,
            Err(Stop::Budget) => 7,
            Err(Stop::Table) => 21,
            Err(_) => 8,
        };
        [answer, 0, self.rows as u64, self.steps as u64, self.words as u64, 0]
    }

    /// Writes a whole value of the target.
    fn copy(&mut self, at: usize) {
        let words = &self.target[at..self.places.end[at] as usize];
        self.room[self.words..self.words + words.len()].copy_from_slice(words);
        self.words += words.len();
    }
}

// ---- The two services.

fn refused(answer: u64) -> impl Fn(usize) -> (u64, u64) {
    move |place| (answer, place as u64)
}

/// Where the parts of matcher and pattern end.
struct Rule {
    matcher_ends: MatcherEnds,
    ends: Ends,
}

/// The tests 1 to 4; gives the number of variables.
fn read_rule(dialect: u32, [matcher, pattern]: [&[i32]; 2], rule: &mut Rule) -> Result<usize, (u64, u64)> {
    read_matcher(matcher, &mut rule.matcher_ends).map_err(refused(1))?;
    read_pattern(pattern, &mut rule.ends).map_err(refused(2))?;
    let variables = count_variables(pattern, &rule.ends).map_err(refused(3))?;
    let mut fitting = Fitting { matcher, matcher_ends: &rule.matcher_ends, pattern, dialect, under: [0; 16] };
    fitting.part(0, 0).map_err(refused(4))?;
    Ok(variables)
}

/// The tests 1 to 6, and the search ready to begin, given to what runs it.
fn checked(
    dialect: u32,
    [matcher, pattern, target]: [&[i32]; 3],
    budget: u32,
    room: &mut [i32],
    run: impl FnOnce(Search) -> Matched,
) -> Matched {
    let mut rule = Rule { matcher_ends: [0; 64], ends: [0; 256] };
    let mut places = Places::new();
    let read = |rule: &mut Rule, places: &mut Places| {
        let turned_away = |(answer, place)| [answer, place, 0, 0, 0, 0];
        let variables = read_rule(dialect, [matcher, pattern], rule).map_err(turned_away)?;
        read_target(target, places).map_err(|(place, cause)| [5, place as u64, 0, 0, 0, cause as u64])?;
        let forms = Forms { matcher, matcher_ends: &rule.matcher_ends, target, places };
        fits_value(forms, 0, 0).map_err(refused(6)).map_err(turned_away)?;
        Ok(variables)
    };
    let variables = match read(&mut rule, &mut places) {
        Ok(variables) => variables,
        Err(numbers) => return numbers,
    };
    run(Search {
        matcher,
        matcher_ends: &rule.matcher_ends,
        pattern,
        target,
        ends: &rule.ends,
        places: &places,
        variables,
        budget,
        room,
        bound: [Held { at: 0, marks: 0 }; 16],
        inside: false,
        origins: false,
        once: dialect == 2,
        rows: 0,
        steps: 0,
        words: 0,
    })
}

fn depth_first(mut search: Search) -> Matched {
    let start = Atom { pattern: 0, matcher: 0, value: search.whole(0), older: None };
    let ended = search.take_up(Some(&start));
    search.numbers(ended)
}

pub fn match_words(matcher: &[i32], pattern: &[i32], target: &[i32], budget: u32, room: &mut [i32]) -> Matched {
    checked(1, [matcher, pattern, target], budget, room, depth_first)
}

/// What the caller picks: the row form, the dialect, and for the order of No. 10 how many states the table holds.
#[derive(Clone, Copy)]
pub struct Picked {
    pub form: u32,
    pub dialect: u32,
    pub table: Option<usize>,
}

const NO_FORM: u64 = 20;
const NO_DIALECT: u64 = 22;

/// The refusal of a form or a dialect that there is not, in this order.
fn picked_wrong(form: u32, dialect: u32) -> Option<u64> {
    let known = |number| number == 1 || number == 2;
    match (known(form), known(dialect)) {
        (false, _) => Some(NO_FORM),
        (true, false) => Some(NO_DIALECT),
        _ => None,
    }
}

pub fn match_picked(picked: Picked, words: [&[i32]; 3], budget: u32, room: &mut [i32]) -> Matched {
    let Picked { form, dialect, table } = picked;
    if let Some(answer) = picked_wrong(form, dialect) {
        return [answer, 0, 0, 0, 0, 0];
    }
    checked(dialect, words, budget, room, |mut search| {
        search.origins = form == 2;
        match table {
            Some(holds) => rounds::by_rounds(search, holds),
            None => depth_first(search),
        }
    })
}

/// Section 6's sum and product with No. 12's factors, as far as a walk of the pattern has come. Each is exact or at its largest number; so 0 times what is too large is 0.
struct Weighing<'a> {
    matcher: &'a [i32],
    matcher_ends: &'a MatcherEnds,
    pattern: &'a [i32],
    cap: u64,
    sum: u64,
    product: u64,
}

impl Weighing<'_> {
    /// Weighs the part at `at` under the matcher at `m`, which stands in the rest of so many conses; gives where the part ends.
    fn part(&mut self, at: usize, m: usize, taken: u64) -> usize {
        let (tag, under) = (self.pattern[at], self.matcher[m]);
        let steps = if tag <= VARIABLE && under != SOMETHING { 2 } else { 1 };
        self.sum = self.sum.saturating_add(self.product.saturating_mul(steps));
        let factor = match (tag, under) {
            (JOIN, _) => self.cap + 1,
            (CONS, MULTISET) => self.cap.saturating_sub(taken),
            _ => 1,
        };
        self.product = self.product.saturating_mul(factor);
        match tag {
            CONS => {
                let middle = self.part(at + 1, m + 1, 0);
                self.part(middle, m, taken + 1)
            }
            JOIN => {
                let middle = self.part(at + 1, m, 0);
                self.part(middle, m, 0)
            }
            AND => {
                let middle = self.part(at + 1, m, taken);
                self.part(middle, m, taken)
            }
            OR => {
                let earlier = self.product;
                let middle = self.part(at + 1, m, taken);
                let first = std::mem::replace(&mut self.product, earlier);
                let end = self.part(middle, m, taken);
                self.product = self.product.saturating_add(first);
                end
            }
            NOT => {
                let earlier = self.product;
                let end = self.part(at + 1, m, taken);
                self.sum = self.sum.saturating_add(self.product);
                self.product = earlier;
                end
            }
            TUPLE => {
                let (mut end, mut m) = (at + 2, m + 2);
                for _ in 0..self.pattern[at + 1] {
                    end = self.part(end, m, 0);
                    m = self.matcher_ends[m] as usize;
                }
                end
            }
            _ => at + 1 + operands(tag),
        }
    }
}

/// Whether a whole pattern has none of the tags 2, 3, 4, 5 and none of 10: tag after tag, past the operands.
fn always_true(pattern: &[i32]) -> bool {
    let mut at = 0;
    while let Some(&tag) = pattern.get(at) {
        if matches!(tag, CONSTANT | VALUE | NIL | CONS | NOT) {
            return false;
        }
        at += 1 + operands(tag);
    }
    true
}

pub fn review(matcher: &[i32], pattern: &[i32], cap: i32) -> Reviewed {
    review_with(1, matcher, pattern, cap)
}

pub fn review_with(dialect: u32, matcher: &[i32], pattern: &[i32], cap: i32) -> Reviewed {
    if let Some(answer) = picked_wrong(1, dialect) {
        return [answer, 0, 0];
    }
    let mut rule = Rule { matcher_ends: [0; 64], ends: [0; 256] };
    if let Err((answer, place)) = read_rule(dialect, [matcher, pattern], &mut rule) {
        return [answer, place, 0];
    }
    if always_true(pattern) {
        return [11, 0, 0];
    }
    if !(0..=64).contains(&cap) {
        return [9, 0, 0];
    }
    let matcher_ends = &rule.matcher_ends;
    let mut weighing = Weighing { matcher, matcher_ends, pattern, cap: cap as u64, sum: 0, product: 1 };
    weighing.part(0, 0, 0);
    let count = weighing.sum.saturating_add(weighing.product);
    if count > u32::MAX as u64 {
        return [10, 0, 0];
    }
    [0, 0, count]
}
