//! The proved marker against the same search in idiomatic Rust over `std::collections::BinaryHeap`: the same tasks, the
//! same questions, interleaved in one run. Both read the same task interface (states, actions, transition, goal), make
//! their table and list once for a batch of questions, and clear the table at each question.

use crate::proved::{self, MARK, Row, Setup, Step};
use std::cmp::Reverse;
use std::collections::BinaryHeap;
use std::process::ExitCode;
use std::time::{Duration, Instant};

const LIMIT: u32 = 1_000_000;

/// What a search asks of a task.
trait Task {
    fn states(&self) -> u32;
    fn actions(&self) -> u16;
    fn transition(&self, state: u32, action: u16) -> Option<(u32, u32)>;
    fn is_goal(&self, state: u32) -> bool;
}

#[derive(Clone, Copy)]
struct StripsAction {
    preconditions: u32,
    adds: u32,
    deletes: u32,
    price: u32,
}

struct Strips {
    facts: u32,
    goal: u32,
    actions: Vec<StripsAction>,
}

impl Task for Strips {
    fn states(&self) -> u32 {
        1 << self.facts
    }

    fn actions(&self) -> u16 {
        self.actions.len() as u16
    }

    fn transition(&self, state: u32, action: u16) -> Option<(u32, u32)> {
        let a = &self.actions[action as usize];
        (state & a.preconditions == a.preconditions).then_some((state & !a.deletes | a.adds, a.price))
    }

    fn is_goal(&self, state: u32) -> bool {
        state & self.goal == self.goal
    }
}

/// Variables and values of one list of an action.
type Pairs = Vec<(u8, u8)>;

struct FiniteDomain {
    counts: Vec<u32>,
    /// How much one more of a variable's value adds to a state's number.
    strides: Vec<u32>,
    states: u32,
    goal: Pairs,
    actions: Vec<(Pairs, Pairs, u32)>,
}

impl FiniteDomain {
    fn new(counts: Vec<u32>, goal: Pairs, actions: Vec<(Pairs, Pairs, u32)>) -> FiniteDomain {
        let mut strides = Vec::new();
        let mut states = 1;
        for count in &counts {
            strides.push(states);
            states *= count;
        }
        FiniteDomain { counts, strides, states, goal, actions }
    }

    fn value(&self, state: u32, variable: u8) -> u32 {
        state / self.strides[variable as usize] % self.counts[variable as usize]
    }

    fn holds(&self, state: u32, pairs: &[(u8, u8)]) -> bool {
        pairs.iter().all(|&(variable, value)| self.value(state, variable) == value as u32)
    }
}

impl Task for FiniteDomain {
    fn states(&self) -> u32 {
        self.states
    }

    fn actions(&self) -> u16 {
        self.actions.len() as u16
    }

    fn transition(&self, state: u32, action: u16) -> Option<(u32, u32)> {
        let (preconditions, effects, price) = &self.actions[action as usize];
        if !self.holds(state, preconditions) {
            return None;
        }
        let mut to = state;
        for &(variable, value) in effects {
            let stride = self.strides[variable as usize];
            to = to - self.value(state, variable) * stride + value as u32 * stride;
        }
        Some((to, *price))
    }

    fn is_goal(&self, state: u32) -> bool {
        self.holds(state, &self.goal)
    }
}

/// The search in idiomatic Rust: a binary heap whose outdated entries are skipped when they come up.
struct Search<'a, T> {
    task: &'a T,
    estimates: Option<&'a [u32]>,
    known: Vec<Option<(u64, bool)>>,
    waiting: BinaryHeap<Reverse<(u64, bool, u32)>>,
}

impl<'a, T: Task> Search<'a, T> {
    fn new(task: &'a T, estimates: Option<&'a [u32]>) -> Self {
        Search { task, estimates, known: vec![None; task.states() as usize], waiting: BinaryHeap::new() }
    }

    fn estimate(&self, state: u32) -> Option<u64> {
        match self.estimates {
            None => Some(0),
            Some(numbers) => Some(numbers[state as usize]).filter(|&n| n != u32::MAX).map(u64::from),
        }
    }

    fn offer(&mut self, state: u32, cost: u64, tagged: bool) {
        let better = match self.known[state as usize] {
            None => true,
            Some((known, tag)) => cost < known || cost == known && tagged && !tag,
        };
        if better {
            self.known[state as usize] = Some((cost, tagged));
            if let Some(estimate) = self.estimate(state) {
                self.waiting.push(Reverse((cost + estimate, !tagged, state)));
            }
        }
    }

    /// The entry that comes first, and whether it is still the one of its state.
    fn take(&mut self) -> Option<(u32, u64, bool)> {
        while let Some(Reverse((front, untagged, state))) = self.waiting.pop() {
            let (cost, tagged) = self.known[state as usize]?;
            if tagged != untagged && cost + self.estimate(state)? == front {
                return Some((state, cost, tagged));
            }
        }
        None
    }

    /// 2 best, 3 other, 4 stuck, 5 spent; and the turns. `None` where the question is refused.
    fn mark(&mut self, state: u32, action: u16, limit: u32) -> Option<(u8, u32)> {
        if state >= self.task.states() || action >= self.task.actions() {
            return None;
        }
        let (to, coins) = self.task.transition(state, action)?;
        if self.task.is_goal(state) {
            return None;
        }
        self.known.fill(None);
        self.waiting.clear();
        self.offer(state, 0, false);
        self.offer(to, u64::from(coins), true);
        let mut turns = 0;
        while let Some((state, cost, tagged)) = self.take() {
            if turns == limit {
                return Some((5, turns));
            }
            turns += 1;
            if self.task.is_goal(state) {
                return Some((if tagged { 2 } else { 3 }, turns));
            }
            for action in 0..self.task.actions() {
                if let Some((to, coins)) = self.task.transition(state, action) {
                    self.offer(to, cost + u64::from(coins), tagged);
                }
            }
        }
        Some((4, turns))
    }
}

/// Numbers that are the same in every run.
struct Numbers(u64);

impl Numbers {
    fn below(&mut self, n: u32) -> u32 {
        self.0 = self.0.wrapping_mul(6364136223846793005).wrapping_add(1442695040888963407);
        ((self.0 >> 33) % u64::from(n)) as u32
    }
}

/// A task of `facts` facts, all of them the goal: for each an action that adds it and, where there is room, more that
/// need two facts, add one and delete one.
fn strips(facts: u32, actions: usize, numbers: &mut Numbers) -> Strips {
    let mut list = Vec::new();
    for i in 0..actions as u32 {
        let bit = |n: u32| 1u32 << n;
        list.push(if i < facts {
            StripsAction { preconditions: 0, adds: bit(i), deletes: 0, price: 20 + numbers.below(30) }
        } else {
            StripsAction {
                preconditions: bit(numbers.below(facts)) | bit(numbers.below(facts)),
                adds: bit(numbers.below(facts)),
                deletes: bit(numbers.below(facts)),
                price: 1 + numbers.below(40),
            }
        });
    }
    Strips { facts, goal: (1 << facts) - 1, actions: list }
}

fn strips_sheet(task: &Strips) -> Vec<u8> {
    let mut body = Vec::new();
    body.extend_from_slice(&0u32.to_be_bytes());
    body.extend_from_slice(&task.goal.to_be_bytes());
    for a in &task.actions {
        body.extend_from_slice(&17u16.to_be_bytes());
        for n in [a.price, a.preconditions, a.adds, a.deletes] {
            body.extend_from_slice(&n.to_be_bytes());
        }
        body.push(b'a');
    }
    sheet(1, task.facts as u8, task.actions.len() as u16, &body)
}

fn sheet(kind: u8, size: u8, actions: u16, body: &[u8]) -> Vec<u8> {
    let mut bytes = vec![1];
    bytes.extend_from_slice(&(9 + body.len() as u32).to_be_bytes());
    bytes.push(kind);
    bytes.push(size);
    bytes.extend_from_slice(&actions.to_be_bytes());
    bytes.extend_from_slice(body);
    bytes
}

/// A task of variables with as many values as `counts` says, each of which can be stepped up at a price, and, where
/// there is room, actions that need two values and set one.
fn finite_domain(counts: &[u32], actions: usize, numbers: &mut Numbers) -> FiniteDomain {
    let mut list = Vec::new();
    for (variable, &count) in counts.iter().enumerate() {
        for value in 0..count - 1 {
            let (v, n) = (variable as u8, value as u8);
            list.push((vec![(v, n)], vec![(v, n + 1)], 20 + numbers.below(30)));
        }
    }
    list.truncate(actions);
    while list.len() < actions {
        let mut pair = || {
            let variable = numbers.below(counts.len() as u32);
            (variable as u8, numbers.below(counts[variable as usize]) as u8)
        };
        let mut needs = vec![pair(), pair()];
        needs.sort();
        needs.dedup_by_key(|p| p.0);
        let effects = vec![pair()];
        list.push((needs, effects, 1 + numbers.below(40)));
    }
    let goal = counts.iter().enumerate().map(|(v, &n)| (v as u8, (n - 1) as u8)).collect();
    FiniteDomain::new(counts.to_vec(), goal, list)
}

fn finite_domain_sheet(task: &FiniteDomain) -> Vec<u8> {
    let mut body: Vec<u8> = task.counts.iter().map(|&n| n as u8).collect();
    body.extend(task.counts.iter().map(|_| 0));
    body.extend(task.goal.iter().map(|p| p.1));
    for (needs, effects, price) in &task.actions {
        let length = 4 + 2 + 2 * (needs.len() + effects.len()) + 1;
        body.extend_from_slice(&(length as u16).to_be_bytes());
        body.extend_from_slice(&price.to_be_bytes());
        for list in [needs, effects] {
            body.push(list.len() as u8);
            body.extend(list.iter().flat_map(|&(v, n)| [v, n]));
        }
        body.push(b'a');
    }
    sheet(2, task.counts.len() as u8, task.actions.len() as u16, &body)
}

/// Half of each exact cost to go, rounded down, which is consistent; found by passes over all transitions.
fn halved<T: Task>(task: &T) -> Vec<u32> {
    let mut togo: Vec<u32> = (0..task.states()).map(|s| if task.is_goal(s) { 0 } else { u32::MAX }).collect();
    loop {
        let mut changed = false;
        for state in (0..task.states()).rev() {
            for action in 0..task.actions() {
                if let Some((to, coins)) = task.transition(state, action) {
                    let by = togo[to as usize].saturating_add(coins);
                    if by < togo[state as usize] {
                        togo[state as usize] = by;
                        changed = true;
                    }
                }
            }
        }
        if !changed {
            return togo.into_iter().map(|n| if n == u32::MAX { n } else { n / 2 }).collect();
        }
    }
}

/// Questions about applicable actions, spread over the states.
fn questions<T: Task>(task: &T, count: usize, numbers: &mut Numbers) -> Vec<(u32, u16)> {
    let mut list = Vec::new();
    while list.len() < count {
        let state = numbers.below(task.states()) & numbers.below(task.states()) & numbers.below(task.states());
        let action = numbers.below(u32::from(task.actions())) as u16;
        if task.transition(state, action).is_some() && !task.is_goal(state) {
            list.push((state, action));
        }
    }
    list
}

fn by_proof(sheet: &[u8], states: u32, estimates: Option<&[u32]>, asked: &[(u32, u16)]) -> (Duration, Vec<Row>) {
    let setup = Setup {
        cost: 0,
        heuristic: estimates.is_some() as u8,
        list: 0,
        check: 0,
        stride: 1,
        records: states,
        room: states,
    };
    let steps: Vec<Step> = asked
        .iter()
        .map(|&(state, action)| Step { call: MARK, tagged: 0, action, state, number: LIMIT })
        .collect();
    let mut rows = vec![Row::default(); steps.len()];
    let began = Instant::now();
    proved::play(&setup, sheet, estimates.unwrap_or(&[]), &[], &steps, &mut rows).expect("there is memory");
    (began.elapsed(), rows)
}

fn by_rust<T: Task>(task: &T, estimates: Option<&[u32]>, asked: &[(u32, u16)]) -> (Duration, Vec<(u8, u32)>) {
    let began = Instant::now();
    let mut search = Search::new(task, estimates);
    let answers = asked
        .iter()
        .map(|&(state, action)| search.mark(state, action, LIMIT).expect("the question is sound"))
        .collect();
    (began.elapsed(), answers)
}

fn compare<T: Task>(name: &str, task: &T, sheet: &[u8], count: usize, rounds: usize, numbers: &mut Numbers) {
    let asked = questions(task, count, numbers);
    let halves = halved(task);
    for (heuristic, estimates) in [("blind", None), ("table", Some(&halves[..]))] {
        let (mut proved, mut rust) = (Vec::new(), Vec::new());
        let mut turns = 0u64;
        for _ in 0..rounds {
            let (time, rows) = by_proof(sheet, task.states(), estimates, &asked);
            proved.push(time);
            let (time, answers) = by_rust(task, estimates, &asked);
            rust.push(time);
            turns = rows.iter().map(|r| u64::from(r.turns)).sum();
            for (row, answer) in rows.iter().zip(&answers) {
                assert!(row.number == 0 && row.status == answer.0, "{name}: {row:?} {answer:?}");
            }
        }
        proved.sort();
        rust.sort();
        let (p, r) = (proved[rounds / 2], rust[rounds / 2]);
        let per = |d: Duration| d.as_nanos() as f64 / turns as f64;
        println!(
            "{name:<14} {:>6} {:>4} {heuristic:<5} {:>9} {:>10.1} {:>10.1} {:>7.2}",
            task.states(),
            task.actions(),
            turns,
            per(p),
            per(r),
            r.as_secs_f64() / p.as_secs_f64(),
        );
    }
}

/// `bench speed`; fails where the two disagree in a verdict.
pub fn command(_words: &[String]) -> ExitCode {
    let mut numbers = Numbers(7);
    println!("kind           states acts h         turns  proved ns    rust ns   ratio");
    for (facts, actions, count, rounds) in [
        (10, 16, 400, 11),
        (10, 512, 40, 11),
        (13, 16, 40, 7),
        (14, 16, 20, 7),
        (15, 16, 10, 7),
        (16, 16, 6, 7),
        (16, 512, 2, 5),
    ] {
        let task = strips(facts, actions, &mut numbers);
        compare("facts", &task, &strips_sheet(&task), count, rounds, &mut numbers);
    }
    for (counts, actions, count, rounds) in
        [(vec![4; 5], 16, 400, 11), (vec![4; 5], 512, 40, 11), (vec![16; 4], 60, 2, 5), (vec![16; 4], 512, 2, 3)]
    {
        let task = finite_domain(&counts, actions, &mut numbers);
        compare("dials", &task, &finite_domain_sheet(&task), count, rounds, &mut numbers);
    }
    ExitCode::SUCCESS
}
