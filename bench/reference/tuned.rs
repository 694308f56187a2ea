//! The search once more, tuned: for each tag of the pattern its kind, its matcher and its second part are prepared, the first atom travels in registers,
//! and only atoms that wait are stored. The tests before it, equality and rows are the plain program's.

use super::*;

/// What is done with a value, by the pattern's tag and the matcher's.
#[derive(Clone, Copy)]
enum Kind {
    Pass,
    PassUnder,
    Bind,
    BindUnder,
    Constant,
    SameNumber,
    Same,
    Nil,
    ListCons,
    Cons,
    Join,
    Tuple,
    And,
    Or,
    Not,
}

fn kind(tag: i32, under: i32) -> Kind {
    match (tag, under) {
        (WILDCARD, SOMETHING) => Kind::Pass,
        (WILDCARD, _) => Kind::PassUnder,
        (VARIABLE, SOMETHING) => Kind::Bind,
        (VARIABLE, _) => Kind::BindUnder,
        (CONSTANT, _) => Kind::Constant,
        (VALUE, INTEGER) => Kind::SameNumber,
        (VALUE, _) => Kind::Same,
        (NIL, _) => Kind::Nil,
        (CONS, LIST) => Kind::ListCons,
        (CONS, _) => Kind::Cons,
        (JOIN, _) => Kind::Join,
        (TUPLE, _) => Kind::Tuple,
        (AND, _) => Kind::And,
        (OR, _) => Kind::Or,
        _ => Kind::Not,
    }
}

/// A tag of the pattern: the index of its matcher, the number of its variable, where its second part stands, and its constant.
#[derive(Clone, Copy)]
struct Node {
    kind: Kind,
    matcher: u8,
    variable: u8,
    second: u16,
    constant: i32,
}

const NO_NODE: Node = Node { kind: Kind::Pass, matcher: 0, variable: 0, second: 0, constant: 0 };

/// The pattern's tags, each at its own index.
struct Prepared<'a> {
    matcher: &'a [i32],
    matcher_ends: &'a MatcherEnds,
    pattern: &'a [i32],
    ends: &'a Ends,
    nodes: [Node; 256],
}

impl Prepared<'_> {
    /// Prepares the part at `at` under the matcher at `m`.
    fn part(&mut self, at: usize, m: usize) {
        let tag = self.pattern[at];
        let mut node = Node { kind: kind(tag, self.matcher[m]), matcher: m as u8, ..NO_NODE };
        match tag {
            CONSTANT => node.constant = self.pattern[at + 1],
            VARIABLE => node.variable = self.pattern[at + 1] as u8,
            VALUE => {
                node.variable = self.pattern[at + 1] as u8;
                node.constant = self.pattern[at + 2];
            }
            CONS | JOIN | AND | OR => {
                node.second = self.ends[at + 1];
                self.part(at + 1, if tag == CONS { m + 1 } else { m });
                self.part(node.second as usize, m);
            }
            NOT => self.part(at + 1, m),
            TUPLE => {
                let (mut at, mut m) = (at + 2, m + 2);
                for _ in 0..self.pattern[at - 1] {
                    self.part(at, m);
                    at = self.ends[at] as usize;
                    m = self.matcher_ends[m] as usize;
                }
            }
            _ => {}
        }
        self.nodes[at] = node;
    }
}

/// An atom that waits, and the older ones behind it.
struct Waiting<'a> {
    node: usize,
    value: Held,
    older: Option<&'a Waiting<'a>>,
}

struct Tuned<'a> {
    nodes: &'a [Node; 256],
    search: Search<'a>,
}

impl Tuned<'_> {
    /// Takes up the state with this atom first, with all that comes from it.
    fn take_up(&mut self, mut at: usize, mut value: Held, mut older: Option<&Waiting>) -> Result<(), Stop> {
        loop {
            self.search.step()?;
            let node = self.nodes[at];
            match node.kind {
                Kind::Pass => {}
                Kind::PassUnder => self.search.step()?,
                Kind::Bind => self.search.bound[node.variable as usize & 15] = value,
                Kind::BindUnder => {
                    self.search.step()?;
                    self.search.bound[node.variable as usize & 15] = value;
                }
                Kind::Constant => {
                    if self.search.target[value.at + 1] != node.constant {
                        return Ok(());
                    }
                }
                Kind::SameNumber => {
                    let other = self.search.target[self.search.bound[node.variable as usize & 15].at + 1];
                    if other.checked_add(node.constant) != Some(self.search.target[value.at + 1]) {
                        return Ok(());
                    }
                }
                Kind::Same => {
                    let other = self.search.bound[node.variable as usize & 15];
                    if !self.search.equal(node.matcher as usize, other, 0, value) {
                        return Ok(());
                    }
                }
                Kind::Nil => {
                    if value.marks != 0 {
                        return Ok(());
                    }
                }
                Kind::ListCons => {
                    if value.marks == 0 {
                        return Ok(());
                    }
                    return self.cons(at, node, value, value.marks.trailing_zeros(), older);
                }
                Kind::Cons => {
                    let mut left = value.marks;
                    while left != 0 {
                        self.cons(at, node, value, left.trailing_zeros(), older)?;
                        left &= left - 1;
                    }
                    return Ok(());
                }
                Kind::Join => return self.join(at, node, value, older),
                Kind::Tuple => return self.tuple(at, value, older),
                Kind::And => {
                    let second = Waiting { node: node.second as usize, value, older };
                    return self.take_up(at + 1, value, Some(&second));
                }
                Kind::Or => {
                    self.take_up(at + 1, value, older)?;
                    return self.take_up(node.second as usize, value, older);
                }
                Kind::Not => {
                    if self.finds(at + 1, value)? {
                        return Ok(());
                    }
                }
            }
            match older {
                None => return self.end(),
                Some(next) => (at, value, older) = (next.node, next.value, next.older),
            }
        }
    }

    /// A state with no atom left.
    fn end(&mut self) -> Result<(), Stop> {
        self.search.step()?;
        if self.search.inside {
            return Err(Stop::Found);
        }
        self.search.row()
    }

    #[inline(always)]
    fn cons(&mut self, at: usize, node: Node, value: Held, k: u32, older: Option<&Waiting>) -> Result<(), Stop> {
        let rest = Held { at: value.at, marks: value.marks & !(1 << k) };
        let waiting = Waiting { node: node.second as usize, value: rest, older };
        let element = self.search.whole(self.search.element(value, k));
        self.take_up(at + 1, element, Some(&waiting))
    }

    fn join(&mut self, at: usize, node: Node, value: Held, older: Option<&Waiting>) -> Result<(), Stop> {
        let mut back = value.marks;
        loop {
            let behind = Waiting { node: node.second as usize, value: Held { at: value.at, marks: back }, older };
            self.take_up(at + 1, Held { at: value.at, marks: value.marks & !back }, Some(&behind))?;
            if back == 0 {
                return Ok(());
            }
            back &= back - 1;
        }
    }

    /// The first part is taken up, the one to three others wait in order.
    fn tuple(&mut self, at: usize, value: Held, older: Option<&Waiting>) -> Result<(), Stop> {
        let parts = self.search.pattern[at + 1] as usize;
        let (mut nodes, mut values) = ([at + 2; 4], [value.at + 2; 4]);
        for i in 1..parts {
            nodes[i] = self.search.ends[nodes[i - 1]] as usize;
            values[i] = self.search.places.end[values[i - 1]] as usize;
        }
        if parts == 2 {
            let second = Waiting { node: nodes[1], value: self.search.whole(values[1]), older };
            return self.take_up(nodes[0], self.search.whole(values[0]), Some(&second));
        }
        let held = values.map(|at| self.search.whole(at));
        let fourth = Waiting { node: nodes[3], value: held[3], older };
        let third = Waiting { node: nodes[2], value: held[2], older: if parts > 3 { Some(&fourth) } else { older } };
        let second = Waiting { node: nodes[1], value: held[1], older: if parts > 2 { Some(&third) } else { older } };
        self.take_up(nodes[0], held[0], Some(&second))
    }

    /// The search inside a not: whether it finds a row.
    fn finds(&mut self, at: usize, value: Held) -> Result<bool, Stop> {
        let outer = std::mem::replace(&mut self.search.inside, true);
        let ended = self.take_up(at, value, None);
        self.search.inside = outer;
        match ended {
            Ok(()) => Ok(false),
            Err(Stop::Found) => Ok(true),
            Err(stop) => Err(stop),
        }
    }
}

pub fn match_words(matcher: &[i32], pattern: &[i32], target: &[i32], budget: u32, room: &mut [i32]) -> Matched {
    checked(1, [matcher, pattern, target], budget, room, |search| {
        let mut prepared =
            Prepared { matcher, matcher_ends: search.matcher_ends, pattern, ends: search.ends, nodes: [NO_NODE; 256] };
        prepared.part(0, 0);
        let start = search.whole(0);
        let mut tuned = Tuned { nodes: &prepared.nodes, search };
        let ended = tuned.take_up(0, start, None);
        tuned.search.numbers(ended)
    })
}
