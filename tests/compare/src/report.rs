//! Counts of what was compared, and the end at the first difference.

use std::collections::BTreeMap;
use std::fmt::Debug;

/// How many cases of each kind were compared, how often each answer came, which refusals came before which, what was
/// wrong with recordings, and which clauses failed at once.
#[derive(Default)]
pub struct Report {
    kinds: BTreeMap<&'static str, u64>,
    answers: BTreeMap<(&'static str, u32), u64>,
    orders: BTreeMap<&'static str, BTreeMap<(&'static str, &'static str), u64>>,
    faults: BTreeMap<&'static str, BTreeMap<&'static str, u64>>,
    waits: BTreeMap<Wait, [u64; Origin::TITLES.len()]>,
    origin: Origin,
}

/// A wait: the kind of its position, the clauses that fail there, and the one that was named.
pub type Wait = (&'static str, Vec<u8>, u32);

/// Where the state of a wait comes from: built for certain clauses to fail, by the place of its node; a run; or other.
#[derive(Clone, Copy, Default, PartialEq, Eq)]
pub enum Origin {
    Neighbour,
    Messenger,
    Hermit,
    Run,
    #[default]
    Other,
}

impl Origin {
    pub const BUILT: [Origin; 3] = [Origin::Neighbour, Origin::Messenger, Origin::Hermit];
    const TITLES: [&'static str; 5] =
        ["Built: neighbour", "Built: messenger", "Built: hermit", "In runs", "Other states"];

    pub fn title(self) -> &'static str {
        Origin::TITLES[self as usize]
    }
}

/// A place in a call's order of refusals: its name, its number, and whether its condition is met.
pub type Refusal = (&'static str, u32, bool);

impl Report {
    pub fn count(&mut self, kind: &'static str) {
        self.add(kind, 1);
    }

    pub fn add(&mut self, kind: &'static str, cases: u64) {
        *self.kinds.entry(kind).or_default() += cases;
    }

    pub fn counted(&self, kind: &'static str) -> bool {
        self.kinds.contains_key(kind)
    }

    pub fn answer(&mut self, call: &'static str, answer: u32) {
        *self.answers.entry((call, answer)).or_default() += 1;
    }

    pub fn seen(&self, call: &'static str, answer: u32) -> bool {
        self.answers.contains_key(&(call, answer))
    }

    /// Rule R2: the refusal is that of the first condition that is met.
    pub fn order(&mut self, call: &'static str, order: &[Refusal], answer: u32) {
        let met: Vec<&Refusal> = order.iter().filter(|(_, _, met)| *met).collect();
        let Some(first) = met.first() else {
            same(call, &(answer == 0 || answer >= 20), &true, || format!("answer {answer} with {order:?}"));
            return;
        };
        same(call, &answer, &first.1, || format!("{order:?}"));
        for later in &met[1..] {
            *self.orders.entry(call).or_default().entry((first.0, later.0)).or_default() += 1;
        }
    }

    /// How many pairs of a call's refusals were due at once, the earlier being given.
    pub fn pairs(&self, call: &'static str) -> usize {
        self.orders.get(call).map_or(0, BTreeMap::len)
    }

    /// What was wrong with a recording that a call refused.
    pub fn fault(&mut self, call: &'static str, fault: &'static str) {
        *self.faults.entry(call).or_default().entry(fault).or_default() += 1;
    }

    pub fn met(&self, call: &'static str, fault: &'static str) -> bool {
        self.faults.get(call).is_some_and(|faults| faults.contains_key(fault))
    }

    /// What an act meets is counted as of this origin.
    pub fn during<T>(&mut self, origin: Origin, act: impl FnOnce(&mut Report) -> T) -> T {
        let before = std::mem::replace(&mut self.origin, origin);
        let result = act(self);
        self.origin = before;
        result
    }

    pub fn origin(&self) -> Origin {
        self.origin
    }

    pub fn wait(&mut self, wait: Wait) {
        self.waits.entry(wait).or_default()[self.origin as usize] += 1;
    }

    pub fn waits(&self, wait: &Wait, origin: Origin) -> u64 {
        self.waits.get(wait).map_or(0, |counts| counts[origin as usize])
    }

    pub fn print(&self) {
        for (kind, count) in &self.kinds {
            println!("{kind}: {count}");
        }
        for ((call, answer), count) in &self.answers {
            println!("{call} answered {answer}: {count}");
        }
        for (call, pairs) in &self.orders {
            let told: Vec<String> = pairs.keys().map(|(first, later)| format!("{first} before {later}")).collect();
            println!("{call}, where two refusals are due: {}", told.join("; "));
        }
        for (call, faults) in &self.faults {
            let told: Vec<String> = faults.iter().map(|(fault, count)| format!("{fault} {count}")).collect();
            println!("{call}, refused with 18 for: {}", told.join("; "));
        }
        self.print_waits();
    }

    /// A table of how many waits had which clauses fail at once.
    fn print_waits(&self) {
        println!("| Position | Clauses that fail | Named | {} |", Origin::TITLES.join(" | "));
        println!("|---|---|---{}|", "|---".repeat(Origin::TITLES.len()));
        for ((kind, failing, named), counts) in &self.waits {
            let failing: Vec<String> = failing.iter().map(u8::to_string).collect();
            let counts: Vec<String> = counts.iter().map(u64::to_string).collect();
            println!("| {kind} | {} | {named} | {} |", failing.join(", "), counts.join(" | "));
        }
    }
}

/// Where library and model differ: what was compared, what each gave, and how to do it again.
pub struct Difference {
    pub what: &'static str,
    pub library: String,
    pub model: String,
    pub again: String,
}

impl Difference {
    pub fn print(&self) {
        eprintln!("difference in {}\nlibrary: {}\nmodel:   {}", self.what, self.library, self.model);
        eprintln!("to do it again: {}", self.again);
    }
}

/// Library and model give the same.
pub fn held<T: PartialEq + Debug>(
    what: &'static str,
    library: &T,
    model: &T,
    again: impl FnOnce() -> String,
) -> Result<(), Difference> {
    if library == model {
        return Ok(());
    }
    Err(Difference { what, library: format!("{library:?}"), model: format!("{model:?}"), again: again() })
}

/// Ends the program at a difference.
pub fn must<T>(result: Result<T, Difference>) -> T {
    result.unwrap_or_else(|difference| {
        difference.print();
        std::process::exit(1)
    })
}

/// Library and model give the same; else the program ends.
pub fn same<T: PartialEq + Debug>(what: &'static str, library: &T, model: &T, again: impl FnOnce() -> String) {
    must(held(what, library, model, again));
}
