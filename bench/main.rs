//! The comparison and the measurement: the library against a Rust program that shares nothing with it.
//!   bench cases FILE..             case files, through the reference and through the services
//!   bench compare N SEED           N random inputs: the services against the reference
//!   bench rules                    what is measured: name, bar in tenths of an instruction, for a `step` or a `call`, and what it is
//!   bench speed CASE ROUNDS WHO [BUDGET]   one of them, or `join` or `two`, again and again, by `plain`, `tuned`, `library` or the library as `origins` (row form 2), `once` (dialect 2),
//!                                  `rounds` (the other search order); prints the steps of one run
//!   bench beside                   what is measured beside the library as it is: who, its bar, cases; only what there is
//!   bench listing ROUNDS           a book of 1,000 rules tested and listed again and again; prints the words of its blocks, and the bar
//!   bench portions CASE CALLS WHO  a rule for CALLS times 1,000 steps: in advances of a run (`run`), or in one match (`match`)
//!   bench advance                  what an advance may cost: in hundredths the most of the same steps in one match, the instructions added, rules
//!   bench stack                    the deepest stacks of a match and of an advance in bytes, and their bars
//! The services are the library's, through the C border (built with `--cfg library`), or else those of a slow second program.

mod books;
mod cases;
mod compare;
mod every;
mod inputs;
mod laws;
#[cfg(library)]
mod library;
#[cfg(library)]
mod listing;
#[cfg(not(library))]
mod model;
mod portions;
mod reference;
#[cfg(library)]
mod runs;
mod scripts;
mod speed;
#[cfg(library)]
mod stack;
mod text;

/// What is put to the test: the two services of section 1, and what came later, where it is there.
pub struct Services {
    pub name: &'static str,
    pub match_words: fn(&[i32], &[i32], &[i32], u32, &mut [i32]) -> reference::Matched,
    pub review: fn(&[i32], &[i32], i32) -> reference::Reviewed,
    /// Match with what the caller picks; none for picks that there are not yet.
    pub picked: fn(scripts::Picks, [&[i32]; 3], u32, &mut [i32]) -> Option<reference::Matched>,
    pub review_with: Option<fn(u32, &[i32], &[i32], i32) -> reference::Reviewed>,
    pub book: Option<scripts::Book>,
    /// The opening of a run with what the caller picks; none for picks that there are not yet.
    pub open: fn(scripts::Picks, [&[i32]; 3], u32) -> Option<(scripts::Advance, [u64; 3])>,
}

impl Services {
    /// Whether a match with these picks is there.
    pub fn takes(&self, picks: scripts::Picks) -> bool {
        (self.picked)(picks, [&[1], &[0], &[0, 7]], 0, &mut []).is_some()
    }
}

fn picked_reference(picks: scripts::Picks, words: [&[i32]; 3], budget: u32, room: &mut [i32]) -> Option<reference::Matched> {
    let [form, order, dialect, table, less] = picks;
    let table = (order == 2).then(|| table.saturating_sub(less) as usize);
    Some(reference::match_picked(reference::Picked { form, dialect, table }, words, budget, room))
}

/// A run goes depth-first.
fn open_reference(picks: scripts::Picks, words: [&[i32]; 3], room: u32) -> Option<(scripts::Advance, [u64; 3])> {
    let [form, _, dialect, ..] = picks;
    let (mut run, answer) = reference::run::Run::open(form, dialect, words, room as usize);
    Some((Box::new(move |steps, room| run.advance(steps, room)), answer))
}

fn no_picks(_: scripts::Picks, _: [&[i32]; 3], _: u32, _: &mut [i32]) -> Option<reference::Matched> {
    None
}

fn no_run(_: scripts::Picks, _: [&[i32]; 3], _: u32) -> Option<(scripts::Advance, [u64; 3])> {
    None
}

const REFERENCE: Services = Services {
    name: "the reference",
    match_words: reference::match_words,
    review: reference::review,
    picked: picked_reference,
    review_with: Some(reference::review_with),
    book: Some(scripts::Book {
        add: reference::book::add,
        withdraw: reference::book::withdraw,
        total: reference::book::total,
        read: reference::book::read,
    }),
    open: open_reference,
};

const TUNED: Services = Services {
    name: "the tuned program",
    match_words: reference::tuned::match_words,
    review: reference::review,
    picked: no_picks,
    review_with: Some(reference::review_with),
    book: None,
    open: no_run,
};

#[cfg(library)]
const TESTED: Services = Services {
    name: "the library",
    match_words: library::match_words,
    review: library::review,
    picked: library::picked,
    review_with: Some(library::review_with),
    book: Some(scripts::Book {
        add: library::book_add,
        withdraw: library::book_withdraw,
        total: library::book_total,
        read: library::book_read,
    }),
    open: runs::open,
};

#[cfg(not(library))]
const TESTED: Services = Services {
    name: "the slow program",
    match_words: model::match_words,
    review: model::review,
    picked: model::picked,
    review_with: Some(model::review_with),
    book: None,
    open: no_run,
};

fn run_cases(services: &Services, paths: &[String]) -> bool {
    let mut count = cases::Count { cases: 0, differ: 0, left: 0 };
    for path in paths {
        cases::file(services, path, &mut count);
    }
    println!("{}: {} cases, {} differ", services.name, count.cases, count.differ);
    if count.left > 0 {
        println!("{}: {} cases not played, since it has no such call", services.name, count.left);
    }
    count.differ == 0
}

fn run_comparison(inputs: u64, seed: u64) -> bool {
    #[cfg(library)]
    println!("{}: {} slices too short for the numbers, answer 24, nothing written", TESTED.name, library::short() + runs::short());
    let lawful = [REFERENCE, TESTED].iter().all(|services| {
        let laws = laws::random(services, inputs / 5, seed);
        let [two, rounds] = [laws.dialects, laws.rounds];
        println!("{}: {two} times dialect 2 and {rounds} times the rounds beside dialect 1 depth-first, {} differ from what is proved", services.name, laws.broken);
        laws.broken == 0
    });
    let portions = portions::random(&TESTED, inputs / 10, seed);
    if let Some(runs) = &portions {
        println!("{} against the reference: {} random runs in {} portions, {} differ", TESTED.name, runs.runs, runs.advances, runs.differ);
        println!("  by answer, 0 to 8 and 19 to 22: {:?}, {:?}", &runs.answers[..9], &runs.answers[19..]);
    }
    let tally = compare::random(&TESTED, inputs, seed);
    let alike = lawful && portions.map_or(true, |runs| runs.differ == 0);
    println!("{} against the reference: {} random inputs, {} differ", TESTED.name, tally.inputs, tally.differ);
    let by_answer = |name: &str, of: &[u64; 23]| println!("  {name}: {:?}, {:?}", &of[..12], &of[20..]);
    by_answer("by answer, 0 to 11 and 20 to 22", &tally.answers);
    by_answer("of these under tuples", &tally.tuples);
    by_answer("of these with and, or, not", &tally.choices);
    by_answer("of these in dialect 2", &tally.dialects);
    by_answer("of these by rounds", &tally.rounds);
    println!("  answer 5 by cause, 1 to 7: {:?}", &tally.causes[1..]);
    let cut = every::random(&TESTED, inputs / 50, seed);
    println!("{} against the reference: {} random rules at every budget and around every room, {} runs, {} differ", TESTED.name, cut.rules, cut.runs, cut.differ);
    let alike = alike && cut.differ == 0;
    let books = match &TESTED.book {
        Some(book) => books::random(book, inputs, seed),
        None => return tally.differ == 0 && alike,
    };
    println!("{} against the reference: {} random calls on rule books, {} differ", TESTED.name, books.calls, books.differ);
    println!("  by answer, 0 and 12 to 23: {} {:?}", books.answers[0], &books.answers[12..24]);
    tally.differ == 0 && alike && books.differ == 0
}

fn list_rules() -> bool {
    for case in &speed::CASES {
        let per = if case.per == speed::Per::Step { "step" } else { "call" };
        println!("{} {} {} {}", case.name, case.bar, per, case.about);
    }
    true
}

/// The library with its rows in form 2.
#[cfg(library)]
const ORIGINS: Services = Services { match_words: library::match_origins, ..TESTED };

#[cfg(not(library))]
const ORIGINS: Services = TESTED;

const IN_DIALECT_2: scripts::Picks = [1, 1, 2, 0, 0];

const ONCE: Services = Services { match_words: |m, p, t, budget, room| (TESTED.picked)(IN_DIALECT_2, [m, p, t], budget, room).unwrap(), ..TESTED };
const ROUNDS: Services = Services { match_words: |m, p, t, budget, room| (TESTED.picked)(scripts::BY_ROUNDS, [m, p, t], budget, room).unwrap(), ..TESTED };

fn run_speed(name: &str, rounds: u64, who: &str, budget: Option<u32>) -> bool {
    let services = match who {
        "plain" => &REFERENCE,
        "tuned" => &TUNED,
        "origins" => &ORIGINS,
        "once" => &ONCE,
        "rounds" => &ROUNDS,
        _ => &TESTED,
    };
    println!("{}", case_of(name).run(services, rounds, budget));
    true
}

fn case_of(name: &str) -> &'static speed::Case {
    let case = speed::CASES.iter().chain(&speed::EITHER_ORDER).chain(speed::GROWN.iter().flatten()).find(|case| case.name == name);
    case.unwrap_or_else(|| panic!("no case {name}: bench rules lists them"))
}

fn list_beside() -> bool {
    if TESTED.takes(IN_DIALECT_2) {
        println!("once {} T2", speed::DIALECT_BAR);
    }
    if TESTED.takes(scripts::BY_ROUNDS) {
        println!("rounds {} T1 {}", speed::ROUNDS_BAR, speed::EITHER_ORDER.map(|case| case.name).join(" "));
    }
    true
}

fn run_stack() -> bool {
    #[cfg(library)]
    {
        println!("{} {} a match", stack::deepest(), speed::STACK_BAR);
        println!("{} {} an advance", stack::of_an_advance(), speed::ADVANCE_STACK_BAR);
    }
    true
}

fn run_listing(rounds: u64) -> bool {
    #[cfg(library)]
    println!("{} {}", listing::words(rounds), speed::LISTING_BAR);
    let _ = rounds;
    true
}

fn list_grown() -> bool {
    for kind in &speed::GROWN {
        let names: Vec<_> = kind.iter().map(|case| case.name).collect();
        println!("{};{}", speed::GROWN_BAR, names.join(";"));
    }
    true
}

fn list_advance() -> bool {
    let (most, added) = speed::ADVANCE_BAR;
    if cfg!(library) {
        println!("{most} {added} {}", speed::ADVANCED);
    }
    true
}

fn run_portions(name: &str, calls: u64, who: &str) -> bool {
    #[cfg(library)]
    runs::portions(case_of(name), calls as u32, who == "match");
    let _ = (name, calls, who);
    true
}

fn number(words: &[String], at: usize) -> u64 {
    words.get(at).and_then(|word| word.parse().ok()).unwrap_or_else(|| panic!("a number is missing: {words:?}"))
}

/// Writes what the plain program counts into review files.
fn recount(paths: &[String]) -> bool {
    for path in paths {
        std::fs::write(path, cases::recounted(&REFERENCE, path)).unwrap();
    }
    true
}

fn main() {
    let words: Vec<String> = std::env::args().skip(1).collect();
    let good = match words.first().map(String::as_str) {
        Some("cases") => [REFERENCE, TUNED, TESTED].iter().all(|services| run_cases(services, &words[1..])),
        Some("compare") => run_comparison(number(&words, 1), number(&words, 2)),
        Some("rules") => list_rules(),
        Some("speed") if words.len() >= 4 => {
            run_speed(&words[1], number(&words, 2), &words[3], words.get(4).map(|_| number(&words, 4) as u32))
        }
        Some("beside") => list_beside(),
        Some("listing") => run_listing(number(&words, 1)),
        Some("portions") if words.len() == 4 => run_portions(&words[1], number(&words, 2), &words[3]),
        Some("advance") => list_advance(),
        Some("grown") => list_grown(),
        Some("stack") => run_stack(),
        Some("recount") => recount(&words[1..]),
        _ => panic!("bench cases FILE.. | compare N SEED | rules | speed CASE ROUNDS WHO [BUDGET] | beside | listing ROUNDS | portions CASE CALLS WHO | advance | grown | stack | recount FILE.."),
    };
    std::process::exit(if good { 0 } else { 1 });
}
