//! Counts what was compared, and prints the first differences with everything that it takes to see them again.
use super::costs::Verdict;
use super::sheet::Refused;
use super::task::{Domain, Task};
use crate::proved::{Row, Setup, Step};
use std::collections::BTreeSet;
use std::fmt::Write;

/// What the rows hold before a call, to see which of them it wrote.
pub const UNTOUCHED: Row = Row { number: 99, status: 98, action: 9797, turns: 96, place: 95 };

/// How many differences are printed in full.
const SHOWN: u64 = 5;

/// One call of `play`, with the seed and index that it came from.
pub struct Case<'a> {
    pub seed: u64,
    pub index: u64,
    pub sheet: &'a [u8],
    pub setup: &'a Setup,
    pub first: &'a [u32],
    pub second: &'a [u32],
    pub steps: &'a [Step],
    pub rows: &'a [Row],
}

#[derive(Default)]
pub struct Tally {
    sheets: u64,
    accepted: u64,
    sheet_refusals: [u64; 9],
    places: [BTreeSet<u64>; 9],
    tasks: [u64; 2],
    plays: u64,
    rows: u64,
    untouched: u64,
    accepted_rows: u64,
    exact: u64,
    foreseen: u64,
    row_refusals: [u64; 19],
    checks: [u64; 3],
    verdicts: [u64; 3],
    bounded: u64,
    readers: u64,
    pub differences: u64,
}

impl Tally {
    pub fn sheet(&mut self, refused: Option<&Refused>) {
        self.sheets += 1;
        match refused {
            Some(refused) => {
                self.sheet_refusals[usize::from(refused.number)] += 1;
                self.places[usize::from(refused.number)].insert(refused.place);
            }
            None => self.accepted += 1,
        }
    }

    pub fn task(&mut self, task: &Task) {
        match task.domain {
            Domain::Strips { .. } => self.tasks[0] += 1,
            Domain::FiniteDomain { .. } => self.tasks[1] += 1,
        }
    }

    /// A row of calls; `number` is the expected answer of the check of its first table.
    pub fn play(&mut self, number: u8) {
        self.plays += 1;
        self.checks[if number == 0 { 2 } else { usize::from(number - 10) }] += 1;
    }

    /// A row; `exact` where the rules fix all of it.
    pub fn row(&mut self, row: &Row, exact: bool) {
        if row.number == UNTOUCHED.number {
            self.untouched += 1;
            return;
        }
        self.rows += 1;
        self.accepted_rows += u64::from(row.number == 0);
        self.exact += u64::from(exact && row.number == 0);
        self.foreseen += u64::from(exact && row.number == 18);
        if let Some(count) = self.row_refusals.get_mut(usize::from(row.number)) {
            *count += 1;
        }
    }

    /// A verdict of an admissible heuristic, compared with the definition.
    pub fn verdict(&mut self, verdict: Verdict) {
        self.verdicts[verdict as usize] += 1;
    }

    /// A marking whose grant reached the number of states under a consistent heuristic.
    pub fn bounded(&mut self) {
        self.bounded += 1;
    }

    /// An answer of the library for readers.
    pub fn reader(&mut self) {
        self.readers += 1;
    }

    pub fn difference(&mut self, case: &Case, what: &str, expected: String, got: String) {
        self.differences += 1;
        if self.differences > SHOWN {
            return;
        }
        let mut hex = String::new();
        for byte in case.sheet {
            let _ = write!(hex, "{byte:02x}");
        }
        println!("DIFFERENCE in {what}: seed {} index {}", case.seed, case.index);
        println!("  expected {expected}");
        println!("  got      {got}");
        println!("  sheet {hex}");
        println!("  {:?}", case.setup);
        println!("  first {:?}", case.first);
        println!("  second {:?}", case.second);
        for (step, row) in case.steps.iter().zip(case.rows) {
            println!("  {step:?} -> {row:?}");
        }
    }

    pub fn print(&self) {
        println!("sheets: {} (accepted {})", self.sheets, self.accepted);
        for number in 1..=8 {
            let places = self.places[number].len();
            println!("  refused {number}: {} at {places} places", self.sheet_refusals[number]);
        }
        println!("tasks: {} of facts, {} of variables; rows of calls: {}", self.tasks[0], self.tasks[1], self.plays);
        let [lengths, broken, passed] = self.checks;
        println!("tables checked: {passed} consistent, {broken} not, {lengths} of the wrong length");
        println!("answers: {}; rows to be left as they were: {}", self.rows, self.untouched);
        println!("  accepted: {}, of which the rules fix {} to the last number", self.accepted_rows, self.exact);
        for number in (9..=18).filter(|number| self.row_refusals[*number] > 0) {
            println!("  refused {number}: {}", self.row_refusals[number]);
        }
        println!("    of which certain beforehand: {}", self.foreseen);
        let [best, other, stuck] = self.verdicts;
        println!("verdicts compared: best {best}, other {other}, stuck {stuck}");
        println!("bounds of turns reached: {}", self.bounded);
        println!("answers of the library for readers: {}", self.readers);
        println!("differences: {}", self.differences);
    }
}
