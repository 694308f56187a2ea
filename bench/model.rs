//! Document 01, with the requests No. 1 to 3, 5, 6, 10, 12 and 13 of document 02, written out sentence by sentence over trees and lists of states: slow, and unlike the reference in every way, to check that one by.

use crate::reference::{Matched, Reviewed};
use crate::scripts::Picks;

#[derive(Clone, PartialEq)]
enum Matcher {
    Something,
    Integer,
    List(Box<Matcher>),
    Multiset(Box<Matcher>),
    Tuple(Vec<Matcher>),
}

/// A pattern, and the index of its tag.
#[derive(Clone)]
struct Pattern {
    at: usize,
    form: Form,
}

#[derive(Clone)]
enum Form {
    Wildcard,
    Variable(i32),
    Constant(i32),
    Value(i32, i32),
    Nil,
    Cons(Box<Pattern>, Box<Pattern>),
    Join(Box<Pattern>, Box<Pattern>),
    Tuple(Vec<Pattern>),
    And(Box<Pattern>, Box<Pattern>),
    Or(Box<Pattern>, Box<Pattern>),
    Not(Box<Pattern>),
}

#[derive(Clone, PartialEq, Eq, PartialOrd, Ord)]
enum Value {
    Int(i32),
    Collection(Vec<Value>),
    Tuple(Vec<Value>),
}

type Fault = usize;

// ---- Section 2: reading.

struct Words<'a> {
    words: &'a [i32],
    at: usize,
}

impl Words<'_> {
    fn next(&mut self) -> Result<i32, Fault> {
        let word = *self.words.get(self.at).ok_or(self.at)?;
        self.at += 1;
        Ok(word)
    }

    fn end<T>(&self, it: T) -> Result<T, Fault> {
        if self.at == self.words.len() {
            Ok(it)
        } else {
            Err(self.at)
        }
    }

    fn width(&mut self) -> Result<i32, Fault> {
        let at = self.at;
        match self.next()? {
            k if (2..=4).contains(&k) => Ok(k),
            _ => Err(at),
        }
    }

    fn matcher(&mut self, left: usize) -> Result<Matcher, Fault> {
        let at = self.at;
        match self.next()? {
            0 => Ok(Matcher::Something),
            1 => Ok(Matcher::Integer),
            2 if left > 0 => Ok(Matcher::List(Box::new(self.matcher(left - 1)?))),
            3 if left > 0 => Ok(Matcher::Multiset(Box::new(self.matcher(left - 1)?))),
            4 if left > 0 => {
                let parts = (0..self.width()?).map(|_| self.matcher(left - 1)).collect::<Result<_, _>>();
                Ok(Matcher::Tuple(parts?))
            }
            _ => Err(at),
        }
    }

    fn pattern(&mut self) -> Result<Pattern, Fault> {
        let at = self.at;
        let form = match self.next()? {
            0 => Form::Wildcard,
            1 => Form::Variable(self.next()?),
            2 => Form::Constant(self.next()?),
            3 => Form::Value(self.next()?, self.next()?),
            4 => Form::Nil,
            5 => Form::Cons(Box::new(self.pattern()?), Box::new(self.pattern()?)),
            6 => Form::Join(Box::new(self.pattern()?), Box::new(self.pattern()?)),
            7 => Form::Tuple((0..self.width()?).map(|_| self.pattern()).collect::<Result<_, _>>()?),
            8 => Form::And(Box::new(self.pattern()?), Box::new(self.pattern()?)),
            9 => Form::Or(Box::new(self.pattern()?), Box::new(self.pattern()?)),
            10 => Form::Not(Box::new(self.pattern()?)),
            _ => return Err(at),
        };
        Ok(Pattern { at, form })
    }

    fn value(&mut self, depth: usize) -> Result<Value, Fault> {
        let at = self.at;
        match self.next()? {
            0 => Ok(Value::Int(self.next()?)),
            1 if depth > 0 => {
                let count = self.next()?;
                if !(0..=64).contains(&count) {
                    return Err(at + 1);
                }
                Ok(Value::Collection((0..count).map(|_| self.value(depth - 1)).collect::<Result<_, _>>()?))
            }
            2 if depth > 0 => {
                let parts = (0..self.width()?).map(|_| self.value(depth - 1)).collect::<Result<_, _>>();
                Ok(Value::Tuple(parts?))
            }
            _ => Err(at),
        }
    }
}

fn words(words: &[i32]) -> Words<'_> {
    Words { words, at: 0 }
}

fn limited(words: &[i32], most: usize) -> Result<(), Fault> {
    if words.len() > most {
        Err(most)
    } else {
        Ok(())
    }
}

// ---- Section 2: variables and fit.

/// The tags left to right, and whether each stands inside an or or a not.
fn tags(p: &Pattern, inside: bool) -> Vec<(&Pattern, bool)> {
    let below = inside || matches!(p.form, Form::Or(..) | Form::Not(_));
    let parts: Vec<&Pattern> = match &p.form {
        Form::Cons(a, b) | Form::Join(a, b) | Form::And(a, b) | Form::Or(a, b) => vec![a, b],
        Form::Tuple(parts) => parts.iter().collect(),
        Form::Not(a) => vec![a],
        _ => Vec::new(),
    };
    let parts = parts.into_iter().flat_map(|part| tags(part, below));
    std::iter::once((p, inside)).chain(parts).collect()
}

fn variables(p: &Pattern) -> Result<(), Fault> {
    let mut next = 0;
    for (tag, inside) in tags(p, false) {
        match tag.form {
            Form::Variable(v) if v == next && next < 16 && !inside => next += 1,
            Form::Variable(_) => return Err(tag.at),
            Form::Value(v, _) if !(0..next).contains(&v) => return Err(tag.at),
            _ => {}
        }
    }
    Ok(())
}

fn solid(m: &Matcher) -> bool {
    match m {
        Matcher::Something => false,
        Matcher::Integer => true,
        Matcher::List(m) | Matcher::Multiset(m) => solid(m),
        Matcher::Tuple(ms) => ms.iter().all(solid),
    }
}

/// The matcher with every multiset made a list: two matchers are of the same shape if these are equal.
fn shape(m: &Matcher) -> Matcher {
    match m {
        Matcher::List(m) | Matcher::Multiset(m) => Matcher::List(Box::new(shape(m))),
        Matcher::Tuple(ms) => Matcher::Tuple(ms.iter().map(shape).collect()),
        bare => bare.clone(),
    }
}

fn element(m: &Matcher) -> Option<&Matcher> {
    match m {
        Matcher::List(m) | Matcher::Multiset(m) => Some(m),
        _ => None,
    }
}

/// Dialect 2 wants the elements of a multiset that a cons divides to be such as can be told apart.
fn told_apart(dialect: u32, m: &Matcher) -> bool {
    match m {
        Matcher::Multiset(inner) => dialect == 1 || solid(inner),
        _ => true,
    }
}

fn fits<'a>(dialect: u32, p: &Pattern, m: &'a Matcher, under: &mut Vec<&'a Matcher>) -> Result<(), Fault> {
    let compares = matches!(m, Matcher::Integer);
    let good = match (&p.form, element(m)) {
        (Form::Wildcard, _) => true,
        (Form::Variable(_), _) => {
            under.push(m);
            true
        }
        (Form::Constant(_), _) => compares,
        (Form::Value(v, c), _) => solid(m) && shape(under[*v as usize]) == shape(m) && (compares || *c == 0),
        (Form::Nil, inner) => inner.is_some(),
        (Form::Cons(a, b), Some(inner)) if told_apart(dialect, m) => {
            fits(dialect, a, inner, under)?;
            return fits(dialect, b, m, under);
        }
        (Form::Join(a, b), _) if matches!(m, Matcher::List(_)) => {
            fits(dialect, a, m, under)?;
            return fits(dialect, b, m, under);
        }
        (Form::And(a, b), _) | (Form::Or(a, b), _) => {
            fits(dialect, a, m, under)?;
            return fits(dialect, b, m, under);
        }
        (Form::Not(a), _) => return fits(dialect, a, m, under),
        (Form::Tuple(ps), _) => match m {
            Matcher::Tuple(ms) if ms.len() == ps.len() => {
                return ps.iter().zip(ms).try_for_each(|(p, m)| fits(dialect, p, m, under))
            }
            _ => false,
        },
        _ => false,
    };
    if good {
        Ok(())
    } else {
        Err(p.at)
    }
}

fn size(v: &Value) -> usize {
    match v {
        Value::Int(_) => 2,
        Value::Collection(vs) | Value::Tuple(vs) => 2 + vs.iter().map(size).sum::<usize>(),
    }
}

fn fits_value(m: &Matcher, v: &Value, at: usize) -> Result<(), Fault> {
    match (m, v) {
        (Matcher::Something, _) | (Matcher::Integer, Value::Int(_)) => Ok(()),
        (Matcher::List(m), Value::Collection(vs)) | (Matcher::Multiset(m), Value::Collection(vs)) => {
            let mut at = at + 2;
            for v in vs {
                fits_value(m, v, at)?;
                at += size(v);
            }
            Ok(())
        }
        (Matcher::Tuple(ms), Value::Tuple(vs)) if ms.len() == vs.len() => {
            let mut at = at + 2;
            for (m, v) in ms.iter().zip(vs) {
                fits_value(m, v, at)?;
                at += size(v);
            }
            Ok(())
        }
        _ => Err(at),
    }
}

// ---- Section 4: the search.

#[derive(Clone)]
struct Atom<'a> {
    pattern: &'a Pattern,
    matcher: &'a Matcher,
    value: Value,
}

/// The first atom stands last.
#[derive(Clone)]
struct State<'a> {
    atoms: Vec<Atom<'a>>,
    bindings: Vec<Value>,
}

/// Two values are equal under a matcher if they are the same once the elements of multisets are sorted.
fn sorted(m: &Matcher, v: &Value) -> Value {
    match (m, v) {
        (Matcher::List(m), Value::Collection(vs)) => Value::Collection(vs.iter().map(|v| sorted(m, v)).collect()),
        (Matcher::Multiset(m), Value::Collection(vs)) => {
            let mut vs: Vec<Value> = vs.iter().map(|v| sorted(m, v)).collect();
            vs.sort();
            Value::Collection(vs)
        }
        (Matcher::Tuple(ms), Value::Tuple(vs)) => Value::Tuple(ms.iter().zip(vs).map(|(m, v)| sorted(m, v)).collect()),
        _ => v.clone(),
    }
}

/// The value plus c; none where the sum is outside the signed range.
fn raised(v: &Value, c: i32) -> Option<Value> {
    match v {
        Value::Int(x) => i32::try_from(i64::from(*x) + i64::from(c)).ok().map(Value::Int),
        other => Some(other.clone()),
    }
}

static SOMETHING: Matcher = Matcher::Something;

/// The places of a multiset at which a cons may take an element: in dialect 2 those whose value does not stand before.
fn places(dialect: u32, inner: &Matcher, elements: &[Value]) -> Vec<usize> {
    let values: Vec<Value> = elements.iter().map(|v| sorted(inner, v)).collect();
    (0..values.len()).filter(|&k| dialect == 1 || !values[..k].contains(&values[k])).collect()
}

fn after<'a>(dialect: u32, atom: &Atom<'a>, older: State<'a>) -> Vec<State<'a>> {
    let (m, v) = (atom.matcher, &atom.value);
    let keep = |equal: bool| if equal { vec![older.clone()] } else { Vec::new() };
    let elements: &[Value] = match v {
        Value::Collection(vs) | Value::Tuple(vs) => vs,
        Value::Int(_) => &[],
    };
    let two = |a: &'a Pattern, am: &'a Matcher, av: Value, b: &'a Pattern, bv: Vec<Value>| {
        let mut state = older.clone();
        state.atoms.push(Atom { pattern: b, matcher: m, value: Value::Collection(bv) });
        state.atoms.push(Atom { pattern: a, matcher: am, value: av });
        state
    };
    let same = |parts: &[&'a Pattern]| {
        let mut state = older.clone();
        state.atoms.extend(parts.iter().rev().map(|&part| Atom { pattern: part, matcher: m, value: v.clone() }));
        state
    };
    match (&atom.pattern.form, m) {
        (Form::Wildcard, Matcher::Something) => keep(true),
        (Form::Variable(_), Matcher::Something) => {
            let mut state = older.clone();
            state.bindings.push(v.clone());
            vec![state]
        }
        (Form::Wildcard, _) | (Form::Variable(_), _) => {
            let mut state = older.clone();
            state.atoms.push(Atom { pattern: atom.pattern, matcher: &SOMETHING, value: v.clone() });
            vec![state]
        }
        (Form::Constant(c), _) => keep(*v == Value::Int(*c)),
        (Form::Value(x, c), _) => {
            keep(raised(&older.bindings[*x as usize], *c).map_or(false, |w| sorted(m, &w) == sorted(m, v)))
        }
        (Form::Nil, _) => keep(*v == Value::Collection(Vec::new())),
        (Form::Cons(a, b), Matcher::List(inner)) => elements
            .split_first()
            .map(|(first, rest)| two(a, inner, first.clone(), b, rest.to_vec()))
            .into_iter()
            .collect(),
        (Form::Cons(a, b), Matcher::Multiset(inner)) => places(dialect, inner, elements)
            .into_iter()
            .map(|k| {
                let mut rest = elements.to_vec();
                let one = rest.remove(k);
                two(a, inner, one, b, rest)
            })
            .collect(),
        (Form::Join(a, b), _) => (0..=elements.len())
            .map(|k| two(a, m, Value::Collection(elements[..k].to_vec()), b, elements[k..].to_vec()))
            .collect(),
        (Form::And(a, b), _) => vec![same(&[a, b])],
        (Form::Or(a, b), _) => vec![same(&[a]), same(&[b])],
        (Form::Tuple(ps), Matcher::Tuple(ms)) => {
            let mut state = older.clone();
            for ((p, m), v) in ps.iter().zip(ms).zip(elements).rev() {
                state.atoms.push(Atom { pattern: p, matcher: m, value: v.clone() });
            }
            vec![state]
        }
        _ => unreachable!("the pattern fits"),
    }
}

fn write(v: &Value, words: &mut Vec<i32>) {
    match v {
        Value::Int(x) => words.extend([0, *x]),
        Value::Collection(vs) => {
            words.extend([1, vs.len() as i32]);
            vs.iter().for_each(|v| write(v, words));
        }
        Value::Tuple(vs) => {
            words.extend([2, vs.len() as i32]);
            vs.iter().for_each(|v| write(v, words));
        }
    }
}

/// The states of the run, or of a search inside a not, that wait; and the state that follows the not if its search finds no row.
struct Searching<'a> {
    waiting: Vec<State<'a>>,
    follows: Option<State<'a>>,
}

/// The next state to be taken up. A search without a state has ended, and what follows its not waits in the search around it.
fn next<'a>(searches: &mut Vec<Searching<'a>>) -> Option<State<'a>> {
    loop {
        match searches.last_mut()?.waiting.pop() {
            Some(state) => return Some(state),
            None => {
                let ended = searches.pop()?;
                searches.last_mut()?.waiting.extend(ended.follows);
            }
        }
    }
}

/// The rows that were written.
struct Written<'a> {
    room: &'a mut [i32],
    rows: u64,
    words: usize,
}

impl Written<'_> {
    /// Whether the row fits, and then it is written.
    fn row(&mut self, bindings: &[Value]) -> bool {
        let mut row = Vec::new();
        bindings.iter().for_each(|v| write(v, &mut row));
        let end = self.words + row.len();
        if end > self.room.len() {
            return false;
        }
        self.room[self.words..end].copy_from_slice(&row);
        self.words = end;
        self.rows += 1;
        true
    }

    fn numbers(&self, answer: u64, steps: u64) -> Matched {
        [answer, 0, self.rows, steps, self.words as u64, 0]
    }
}

fn first<'a>(pattern: &'a Pattern, matcher: &'a Matcher, value: Value, bindings: Vec<Value>) -> State<'a> {
    State { atoms: vec![Atom { pattern, matcher, value }], bindings }
}

/// The steps of a search inside a not, and whether it finds a row; after `most` steps it is left.
fn inside(dialect: u32, start: State, most: u64) -> (u64, bool) {
    let (mut waiting, mut steps) = (vec![start], 0);
    while let Some(mut state) = waiting.pop() {
        if steps == most {
            return (steps + 1, false);
        }
        steps += 1;
        match state.atoms.pop() {
            None => return (steps, true),
            Some(Atom { pattern: Pattern { form: Form::Not(p), .. }, matcher, value }) => {
                let (taken, found) = inside(dialect, first(p, matcher, value, state.bindings.clone()), most - steps);
                steps += taken;
                if steps > most {
                    return (steps, false);
                }
                waiting.extend((!found).then(|| state));
            }
            Some(atom) => waiting.extend(after(dialect, &atom, state).into_iter().rev()),
        }
    }
    (steps, false)
}

/// No. 10: "a list of state lists; in a round each list gives up its first state; the states that follow from them form new lists, which come first, in
/// order, and then the remainders, in order." A list's first state stands last.
fn run_rounds(dialect: u32, start: State, holds: usize, budget: u32, room: &mut [i32]) -> Matched {
    let budget = u64::from(budget);
    let (mut lists, mut steps) = (vec![vec![start]], 0);
    let mut written = Written { room, rows: 0, words: 0 };
    while !lists.is_empty() {
        if steps == budget {
            return written.numbers(7, steps);
        }
        if lists.iter().flatten().count() > holds.min(256) {
            return written.numbers(21, steps);
        }
        let mut next = Vec::new();
        for list in &mut lists {
            if steps == budget {
                return written.numbers(7, steps);
            }
            steps += 1;
            let mut state = list.pop().unwrap();
            match state.atoms.pop() {
                None if written.row(&state.bindings) => {}
                None => return written.numbers(8, steps),
                Some(Atom { pattern: Pattern { form: Form::Not(p), .. }, matcher, value }) => {
                    let start = first(p, matcher, value, state.bindings.clone());
                    let (taken, found) = inside(dialect, start, budget - steps);
                    steps += taken;
                    if steps > budget {
                        return written.numbers(7, budget);
                    }
                    if !found {
                        next.push(vec![state]);
                    }
                }
                Some(atom) => next.push(after(dialect, &atom, state).into_iter().rev().collect()),
            }
        }
        next.extend(lists);
        lists = next.into_iter().filter(|list: &Vec<State>| !list.is_empty()).collect();
    }
    written.numbers(0, steps)
}

fn run(dialect: u32, start: State, budget: u32, room: &mut [i32]) -> Matched {
    let mut searches = vec![Searching { waiting: vec![start], follows: None }];
    let (mut answer, mut steps) = (0, 0);
    let mut written = Written { room, rows: 0, words: 0 };
    while let Some(mut state) = next(&mut searches) {
        if steps == u64::from(budget) {
            answer = 7;
            break;
        }
        steps += 1;
        match state.atoms.pop() {
            Some(Atom { pattern: Pattern { form: Form::Not(p), .. }, matcher, value }) => {
                let start = first(p, matcher, value, state.bindings.clone());
                searches.push(Searching { waiting: vec![start], follows: Some(state) });
            }
            Some(atom) => searches.last_mut().unwrap().waiting.extend(after(dialect, &atom, state).into_iter().rev()),
            None if searches.len() > 1 => {
                searches.pop();
            }
            None if written.row(&state.bindings) => {}
            None => {
                answer = 8;
                break;
            }
        }
    }
    written.numbers(answer, steps)
}

// ---- Section 3: the two services.

fn rule(dialect: u32, matcher: &[i32], pattern: &[i32]) -> Result<(Matcher, Pattern), (u64, Fault)> {
    let mut ms = words(matcher);
    let m = limited(matcher, 64).and_then(|()| ms.matcher(4)).and_then(|m| ms.end(m)).map_err(|i| (1, i))?;
    let mut ps = words(pattern);
    let p = limited(pattern, 256).and_then(|()| ps.pattern()).and_then(|p| ps.end(p)).map_err(|i| (2, i))?;
    variables(&p).map_err(|i| (3, i))?;
    fits(dialect, &p, &m, &mut Vec::new()).map_err(|i| (4, i))?;
    Ok((m, p))
}

fn all(dialect: u32, [matcher, pattern, target]: [&[i32]; 3]) -> Result<(Matcher, Pattern, Value), (u64, Fault)> {
    let (m, p) = rule(dialect, matcher, pattern)?;
    let mut ts = words(target);
    let v = limited(target, 1024).and_then(|()| ts.value(8)).and_then(|v| ts.end(v)).map_err(|i| (5, i))?;
    fits_value(&m, &v, 0).map_err(|i| (6, i))?;
    Ok((m, p, v))
}

/// Document 02, No. 6, told from the place alone. A value's tag stands at an even place and is followed by one word; so before an even place as many
/// tags stand as half of it, and the target is whole there if all that they open are among them.
fn cause(target: &[i32], place: usize) -> u64 {
    let opened = |head: &[i32]| if head[0] == 0 { 0 } else { i64::from(head[1]) };
    match target.get(place) {
        _ if target.len() > 1024 => 1,
        None => 5,
        Some(_) if place % 2 == 1 && target[place - 1] == 1 => 3,
        Some(_) if place % 2 == 1 => 7,
        Some(_) if place > 0 && target[..place].chunks(2).map(opened).sum::<i64>() == place as i64 / 2 - 1 => 6,
        Some(1) | Some(2) => 4,
        Some(_) => 2,
    }
}

pub fn match_words(matcher: &[i32], pattern: &[i32], target: &[i32], budget: u32, room: &mut [i32]) -> Matched {
    picked([1, 1, 1, 0, 0], [matcher, pattern, target], budget, room).unwrap()
}

/// Match with what the caller picks; it has no rows in form 2.
pub fn picked(picks: Picks, words: [&[i32]; 3], budget: u32, room: &mut [i32]) -> Option<Matched> {
    let [form, order, dialect, table, less] = picks;
    if form == 2 {
        return None;
    }
    let refused = |answer, place: usize, cause| [answer, place as u64, 0, 0, 0, cause];
    Some(match (form, dialect) {
        (1, 1) | (1, 2) => match all(dialect, words) {
            Ok((m, p, v)) if order == 1 => run(dialect, first(&p, &m, v, Vec::new()), budget, room),
            Ok((m, p, v)) => {
                run_rounds(dialect, first(&p, &m, v, Vec::new()), table.saturating_sub(less) as usize, budget, room)
            }
            Err((5, place)) => refused(5, place, cause(words[2], place)),
            Err((answer, place)) => refused(answer, place, 0),
        },
        (1, _) => refused(22, 0, 0),
        _ => refused(20, 0, 0),
    })
}

/// A number that stops at the largest: 0 times any number is still 0.
#[derive(Clone, Copy)]
struct Capped(u128);

impl std::ops::Add for Capped {
    type Output = Capped;
    fn add(self, other: Capped) -> Capped {
        Capped(self.0.saturating_add(other.0))
    }
}

impl std::ops::Mul for Capped {
    type Output = Capped;
    fn mul(self, other: Capped) -> Capped {
        Capped(self.0.saturating_mul(other.0))
    }
}

/// Section 6 on the tree: the count of a part without its closing product, and its factor. Its collection has at most `left` elements where a cons may take
/// one, and `cap` before any was taken.
fn weight(p: &Pattern, m: &Matcher, cap: u64, left: u64) -> (Capped, Capped) {
    let one = Capped(1);
    let parts = |factor: u64, parts: &[(&Pattern, &Matcher, u64)]| {
        let after = |(count, factor): (Capped, Capped), &(p, m, left): &(&Pattern, &Matcher, u64)| {
            let (inner, times) = weight(p, m, cap, left);
            (count + factor * inner, factor * times)
        };
        parts.iter().fold((one, Capped(factor.into())), after)
    };
    match (&p.form, m) {
        (Form::Wildcard, Matcher::Something) | (Form::Variable(_), Matcher::Something) => (one, one),
        (Form::Wildcard, _) | (Form::Variable(_), _) => (one + one, one),
        (Form::Cons(a, b), Matcher::Multiset(inner)) => parts(left, &[(a, inner, cap), (b, m, left.saturating_sub(1))]),
        (Form::Cons(a, b), Matcher::List(inner)) => parts(1, &[(a, inner, cap), (b, m, cap)]),
        (Form::Join(a, b), _) => parts(cap + 1, &[(a, m, cap), (b, m, cap)]),
        (Form::Tuple(ps), Matcher::Tuple(ms)) => parts(1, &ps.iter().zip(ms).map(|(p, m)| (p, m, cap)).collect::<Vec<_>>()),
        (Form::And(a, b), _) => parts(1, &[(a, m, left), (b, m, left)]),
        (Form::Or(a, b), _) => {
            let ((first, f), (second, g)) = (weight(a, m, cap, left), weight(b, m, cap, left));
            (one + first + second, f + g)
        }
        (Form::Not(a), _) => {
            let (count, factor) = weight(a, m, cap, left);
            (one + count + factor, one)
        }
        _ => (one, one),
    }
}

/// Document 02, No. 5: whether a pattern has a tag that can fail.
fn can_fail(p: &Pattern) -> bool {
    match &p.form {
        Form::Wildcard | Form::Variable(_) => false,
        Form::Constant(_) | Form::Value(..) | Form::Nil | Form::Cons(..) | Form::Not(_) => true,
        Form::Join(a, b) | Form::And(a, b) | Form::Or(a, b) => can_fail(a) || can_fail(b),
        Form::Tuple(ps) => ps.iter().any(can_fail),
    }
}

pub fn review(matcher: &[i32], pattern: &[i32], cap: i32) -> Reviewed {
    review_with(1, matcher, pattern, cap)
}

pub fn review_with(dialect: u32, matcher: &[i32], pattern: &[i32], cap: i32) -> Reviewed {
    if dialect != 1 && dialect != 2 {
        return [22, 0, 0];
    }
    let (m, p) = match rule(dialect, matcher, pattern) {
        Ok(rule) => rule,
        Err((answer, place)) => return [answer, place as u64, 0],
    };
    if !can_fail(&p) {
        return [11, 0, 0];
    }
    if !(0..=64).contains(&cap) {
        return [9, 0, 0];
    }
    let (count, factor) = weight(&p, &m, cap as u64, cap as u64);
    match count + factor {
        Capped(whole) if whole <= u128::from(u32::MAX) => [0, 0, whole as u64],
        _ => [10, 0, 0],
    }
}
