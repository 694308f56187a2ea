//! The search order of request No. 10, plainly: a list of state lists, and in each round the first state of every list is taken up.

use super::*;
use std::collections::VecDeque;

/// A round begins with at most so many waiting states, whatever the table holds.
const WAITING: usize = 256;

/// An atom: where its pattern and its matcher stand; no matcher is something, where tags 0 and 1 go from the others.
#[derive(Clone, Copy)]
struct Waits {
    pattern: usize,
    matcher: Option<usize>,
    value: Held,
}

/// The atoms, the first of them last, and the bindings so far.
#[derive(Clone)]
struct State {
    atoms: Vec<Waits>,
    bound: [Held; 16],
}

type States = VecDeque<State>;

impl State {
    /// The state with atoms before its own, the first of them first.
    fn before(&self, first: &[Waits]) -> State {
        let mut next = self.clone();
        next.atoms.extend(first.iter().rev());
        next
    }

    /// One state follows, or none.
    fn only_if(self, holds: bool) -> States {
        holds.then(|| self).into_iter().collect()
    }
}

/// The two halves of a value at a cons or a join, and the matcher of the first.
fn halves(search: &Search, atom: Waits, m: usize) -> Vec<(Held, usize, Held)> {
    let Held { at, marks } = atom.value;
    let held = |marks| Held { at, marks };
    if search.pattern[atom.pattern] == JOIN {
        let mut fronts = vec![0];
        fronts.extend((0..64).filter(|k| marks >> k & 1 == 1).map(|k| marks & first_marks(k + 1)));
        return fronts.into_iter().map(|front| (held(front), m, held(marks & !front))).collect();
    }
    let choices = match search.matcher[m] {
        LIST => marks & marks.wrapping_neg(),
        _ if search.once => search.first_places(m + 1, atom.value),
        _ => marks,
    };
    let element = |k| search.whole(search.element(atom.value, k));
    (0..64).filter(|k| choices >> k & 1 == 1).map(|k| (element(k), m + 1, held(marks & !(1 << k)))).collect()
}

/// The atoms of a tuple's parts.
fn parts(search: &Search, atom: Waits, m: usize) -> Vec<Waits> {
    let (mut pattern, mut matcher, mut at) = (atom.pattern + 2, m + 2, atom.value.at + 2);
    let mut all = Vec::new();
    for _ in 0..search.pattern[atom.pattern + 1] {
        all.push(Waits { pattern, matcher: Some(matcher), value: search.whole(at) });
        pattern = search.ends[pattern] as usize;
        matcher = search.matcher_ends[matcher] as usize;
        at = search.places.end[at] as usize;
    }
    all
}

/// Takes up a state: its step, its row if no atom is left, and the states that follow. A not is taken up whole, with the steps of its own search.
fn follow(search: &mut Search, mut state: State) -> Result<States, Stop> {
    search.step()?;
    search.bound = state.bound;
    let atom = match state.atoms.pop() {
        Some(atom) => atom,
        None => return search.row().map(|()| States::new()),
    };
    let (tag, first, value) = (search.pattern[atom.pattern], atom.pattern + 1, atom.value);
    let m = match atom.matcher {
        Some(m) if tag > VARIABLE => m,
        Some(m) if search.matcher[m] != SOMETHING => {
            return Ok(state.before(&[Waits { matcher: None, ..atom }]).only_if(true));
        }
        _ => {
            if tag == VARIABLE {
                state.bound[search.pattern[first] as usize] = value;
            }
            return Ok(state.only_if(true));
        }
    };
    let at = |pattern: usize| Waits { pattern, ..atom };
    Ok(match tag {
        CONSTANT => {
            let equal = search.target[value.at] == 0 && search.target[value.at + 1] == search.pattern[first];
            state.only_if(equal)
        }
        VALUE => {
            let equal = search.equal(m, state.bound[search.pattern[first] as usize], search.pattern[first + 1], value);
            state.only_if(equal)
        }
        NIL => state.only_if(search.is_collection(value) && value.marks == 0),
        CONS | JOIN => {
            let second = search.ends[first] as usize;
            let one = |(a, under, b)| {
                let one = Waits { pattern: first, matcher: Some(under), value: a };
                state.before(&[one, Waits { pattern: second, matcher: Some(m), value: b }])
            };
            halves(search, atom, m).into_iter().map(one).collect()
        }
        TUPLE => state.before(&parts(search, atom, m)).only_if(true),
        AND => state.before(&[at(first), at(search.ends[first] as usize)]).only_if(true),
        OR => [state.before(&[at(first)]), state.before(&[at(search.ends[first] as usize)])].into_iter().collect(),
        _ => {
            let found = search.finds(&Atom { pattern: atom.pattern, matcher: m, value, older: None })?;
            state.only_if(!found)
        }
    })
}

/// Rounds until no state waits. The budget comes before the table, also where it ends with a round.
fn rounds(search: &mut Search, holds: usize) -> Result<(), Stop> {
    let start = Waits { pattern: 0, matcher: Some(0), value: search.whole(0) };
    let mut lists: Vec<States> = vec![State { atoms: vec![start], bound: search.bound }.only_if(true)];
    while !lists.is_empty() {
        if search.steps == search.budget {
            return Err(Stop::Budget);
        }
        if lists.iter().map(States::len).sum::<usize>() > holds.min(WAITING) {
            return Err(Stop::Table);
        }
        let mut new = Vec::new();
        for list in &mut lists {
            new.push(follow(search, list.pop_front().unwrap())?);
        }
        new.append(&mut lists);
        new.retain(|list| !list.is_empty());
        lists = new;
    }
    Ok(())
}

pub(super) fn by_rounds(mut search: Search, holds: usize) -> Matched {
    let ended = rounds(&mut search, holds);
    search.numbers(ended)
}
