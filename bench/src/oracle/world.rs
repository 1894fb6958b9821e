//! What is true of a task with a heuristic and a cost, and what the rules say of one start there: when it is refused,
//! and which answers are possible after so many turns.
use super::costs::{Cost, Graph, Verdict, verdict};
use super::heuristic::{Estimates, admissible, consistent};
use super::rules::{Course, Labelled, Rules, earlier};
use super::tally::Tally;
use crate::proved::{Row, Setup, Step};
use std::rc::Rc;

pub const OPEN: u8 = 1;
pub const STUCK: u8 = 4;
const SPENT: u8 = 5;

/// How many states a task may have, and how many turns a search, to be followed turn by turn; and how many states, and
/// how many choices, to be followed through choices.
const FOLLOWED_STATES: u32 = 600;
const FOLLOWED_TURNS: u64 = 3_000;
const CHOSEN_STATES: u32 = 100;
const CHOICES: usize = 200;

/// A task with a heuristic and a cost, and what is true of them.
pub struct World<'a> {
    graph: &'a Graph,
    estimates: &'a Estimates,
    costs: &'a [Option<Cost>],
    pub counted: bool,
    admissible: bool,
    consistent: bool,
    /// A table or list is too short.
    pub short: bool,
    pub room: u32,
}

/// What was marked and how it has to go.
#[derive(Clone)]
pub struct Subject {
    pub limit: u64,
    truth: Verdict,
    course: Rc<Course>,
}

/// The turns made before a call, the budget of the call, and all budgets since the start with it.
pub struct Grant {
    pub turns: u64,
    pub budget: u64,
    pub granted: u64,
}

/// What is known of the list: all that waits, and which states the table knows. Nothing after turns were made.
pub struct List {
    pub waiting: Vec<(u32, Labelled)>,
    pub known: Vec<u32>,
}

/// All of an answer, or nothing where it lay within the bounds; else what was expected.
pub type Judged = Result<bool, String>;

fn status_of(verdict: Verdict) -> u8 {
    match verdict {
        Verdict::Best => 2,
        Verdict::Other => 3,
        Verdict::Stuck => 4,
    }
}

pub fn same(row: &Row, expected: Row) -> Judged {
    if *row == expected { Ok(true) } else { Err(format!("{expected:?}")) }
}

pub fn refused(number: u8, place: u64) -> Row {
    Row { number, place, ..Row::default() }
}

pub fn answered(status: u8, turns: u64) -> Row {
    Row { status, turns: turns as u32, ..Row::default() }
}

impl<'a> World<'a> {
    pub fn new(graph: &'a Graph, estimates: &'a Estimates, costs: &'a [Option<Cost>], setup: &Setup) -> World<'a> {
        let counted = setup.cost != 0;
        World {
            graph,
            estimates,
            costs,
            counted,
            admissible: admissible(estimates, costs),
            consistent: consistent(estimates, graph, counted),
            short: setup.records < graph.states() || setup.room < graph.states(),
            room: setup.room,
        }
    }

    pub fn states(&self) -> u64 {
        u64::from(self.graph.states())
    }

    /// Why a start or a mark is refused, lowest number first.
    pub fn refusal(&self, step: &Step) -> Option<Row> {
        if self.short {
            return Some(refused(9, self.states()));
        }
        if step.number == 0 || step.number > 100_000_000 {
            return Some(refused(12, 0));
        }
        if step.state >= self.graph.states() {
            return Some(refused(13, u64::from(step.state)));
        }
        if usize::from(step.action) >= self.graph.actions {
            return Some(refused(14, u64::from(step.action)));
        }
        if self.graph.edge(step.state, step.action).is_none() {
            return Some(refused(15, u64::from(step.action)));
        }
        self.graph.goal[step.state as usize].then(|| refused(16, u64::from(step.state)))
    }

    /// The subject of an accepted start or mark, and the list behind it.
    pub fn subject(&self, step: &Step) -> (Subject, List) {
        let edge = self.graph.edge(step.state, step.action).expect("a start that is not refused");
        let rules = Rules { graph: self.graph, estimates: self.estimates, counted: self.counted };
        let search = rules.start(step.state, edge);
        let list = List { waiting: rules.waiting(&search), known: vec![step.state, edge.target] };
        let limit = u64::from(step.number);
        let turns = if self.graph.states() > FOLLOWED_STATES { 0 } else { limit.min(FOLLOWED_TURNS) };
        let choices = if self.graph.states() > CHOSEN_STATES { 0 } else { CHOICES };
        let truth = verdict(self.graph, self.costs, step.state, edge, self.counted);
        (Subject { limit, truth, course: Rc::new(rules.course(search, turns, choices)) }, list)
    }

    /// Whether an answer may follow.
    pub fn judge(&self, tally: &mut Tally, subject: &Subject, grant: Grant, row: &Row) -> Judged {
        let Grant { turns, budget, granted } = grant;
        let made = u64::from(row.turns);
        let reach = (turns + budget).min(subject.limit);
        let within = match row.status {
            OPEN => made == turns + budget && made < subject.limit,
            SPENT => made == subject.limit && made <= turns + budget && made > turns,
            2..=4 => made <= reach && (made > turns || (turns == 0 && row.status == 4)),
            _ => false,
        };
        if row.number != 0 || row.place != 0 || row.action != 0 || !within {
            return Err(format!("an answer after {turns} turns and a budget of {budget}, limit {}", subject.limit));
        }
        self.promised(tally, subject, granted, row)?;
        subject.follows(turns, reach, row)
    }

    /// Whether an answer is as promised of admissible and of consistent heuristics.
    pub fn promised(&self, tally: &mut Tally, subject: &Subject, granted: u64, row: &Row) -> Result<(), String> {
        let closed = (2..=4).contains(&row.status);
        if self.admissible && closed {
            tally.verdict(subject.truth);
            if row.status != status_of(subject.truth) {
                return Err(format!("the verdict {:?}", subject.truth));
            }
        }
        if self.consistent && subject.limit >= self.states() {
            if u64::from(row.turns) > self.states() {
                return Err(format!("at most {} turns", self.states()));
            }
            if granted >= self.states() {
                tally.bounded();
                if !closed {
                    return Err(format!("a verdict, for {granted} turns were granted"));
                }
            }
        }
        Ok(())
    }
}

impl Subject {
    /// Whether an answer is possible by the rules once turns up to `reach` are made, `turns` of them before.
    fn follows(&self, turns: u64, reach: u64, row: &Row) -> Judged {
        let (endings, open) = self.course.outcomes(turns, reach);
        let mut answers: Vec<Row> = endings.iter().map(|(verdict, end)| answered(status_of(*verdict), *end)).collect();
        if open == Some(true) {
            answers.push(answered(if reach == self.limit { SPENT } else { OPEN }, reach));
        }
        if answers.contains(row) {
            return Ok(open.is_some() && answers.len() == 1);
        }
        if open.is_none() && u64::from(row.turns) > self.course.known() {
            return Ok(false);
        }
        Err(format!("one of {answers:?}, or more than {} turns: {}", self.course.known(), open.is_none()))
    }
}

impl List {
    /// The place of a refusal 18, where the list makes that certain.
    pub fn foreign(&self, states: u64) -> Option<u64> {
        let Some(mut first) = self.waiting.first().copied() else { return Some(states) };
        for entry in &self.waiting {
            if earlier(entry.1, first.1) {
                first = *entry;
            }
        }
        let alone = self.waiting.iter().filter(|entry| entry.1 == first.1).count() == 1;
        let foreign = u64::from(first.0) >= states || !self.known.contains(&first.0);
        (alone && foreign).then_some(u64::from(first.0))
    }
}
