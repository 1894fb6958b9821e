//! Random setups and random rows of calls on a marking, with calls in between that have to be refused.
use super::costs::{Cost, Graph};
use super::random::Random;
use crate::proved::{ADVANCE, LOOK, MARK, PUT, START, Setup, Step, TAKE};

const MOST_TURNS: u32 = 100_000_000;
const MOST_BUDGET: u32 = 1_000_000;

pub fn setup(random: &mut Random, states: u32) -> Setup {
    let records = length(random, states);
    let room = length(random, states);
    Setup {
        cost: random.pick(&[0, 0, 0, 1, 1, 1, 2, 255]),
        heuristic: random.pick(&[0, 0, 1, 1, 2, 2, 3, 3, 255]),
        list: random.pick(&[0, 0, 0, 1, 1, 1, 200]),
        check: 1,
        stride: random.pick(&[0, 1, 2, 2, 3, 3, 7, states, u32::MAX]),
        records,
        room,
    }
}

/// Mostly one for each state, sometimes more, seldom fewer.
fn length(random: &mut Random, states: u32) -> u32 {
    match random.below(50) {
        0 => random.below(u64::from(states)) as u32,
        1 => states - 1,
        2..=17 => states + random.between(1, 9) as u32,
        _ => states,
    }
}

/// What the calls are about: a task by its transitions, and the costs-to-go, to find states far from the goal.
pub struct Field<'a> {
    pub graph: &'a Graph,
    pub costs: &'a [Option<Cost>],
}

impl Field<'_> {
    /// A state that can be marked, if one was met; often the farthest of several.
    fn state(&self, random: &mut Random) -> Option<u32> {
        let far = random.chance(60);
        let mut found: Option<u32> = None;
        for _ in 0..8 {
            let state = random.below(u64::from(self.graph.states())) as u32;
            let fit = !self.graph.goal[state as usize] && !self.graph.from(state).is_empty();
            let cost = |state: u32| self.costs[state as usize];
            if fit && found.is_none_or(|found| far && cost(found) < cost(state)) {
                found = Some(state);
            }
        }
        found
    }

    /// A state and an action: mostly ones that can be marked, sometimes any, seldom absent ones.
    fn subject(&self, random: &mut Random) -> (u32, u16) {
        let (states, actions) = (self.graph.states(), self.graph.actions as u16);
        let any = (random.below(u64::from(states)) as u32, random.below(u64::from(actions)) as u16);
        match random.below(100) {
            0..=5 => (random.pick(&[states, states + 1, u32::MAX, 65_536]), any.1),
            6..=9 => (any.0, random.pick(&[actions, actions + 1, 512, 65_535])),
            10..=11 => (random.pick(&[states, u32::MAX]), random.pick(&[actions, 65_535])),
            12..=17 => any,
            _ => match self.state(random) {
                Some(state) => (state, random.pick(self.graph.from(state)).action),
                None => any,
            },
        }
    }
}

fn limit(random: &mut Random, states: u32) -> u32 {
    match random.below(20) {
        0 => random.pick(&[0, MOST_TURNS + 1, u32::MAX]),
        1..=3 => random.between(1, 6) as u32,
        4..=5 => random.between(1, u64::from(states)) as u32,
        6..=11 => states,
        12..=16 => states + random.below(100) as u32,
        _ => random.pick(&[MOST_TURNS, MOST_BUDGET, MOST_TURNS - 1]),
    }
}

fn budget(random: &mut Random, states: u32) -> u32 {
    match random.below(20) {
        0 => random.pick(&[MOST_BUDGET + 1, u32::MAX]),
        1 => 0,
        2..=8 => random.between(1, 3) as u32,
        9..=13 => random.between(1, u64::from(states)) as u32,
        14..=16 => states,
        _ => MOST_BUDGET,
    }
}

fn call(random: &mut Random, field: &Field, call: u8) -> Step {
    let (state, action) = field.subject(random);
    let number = match call {
        START | MARK => limit(random, field.graph.states()),
        ADVANCE => budget(random, field.graph.states()),
        _ => random.pick(&[0, 0, 1, 5]),
    };
    Step { call, tagged: random.byte() % 2, action, state, number }
}

/// A row of calls of one of several shapes.
pub fn steps(random: &mut Random, field: &Field, setup: &Setup) -> Vec<Step> {
    let mut steps = Vec::new();
    match random.below(10) {
        0..=3 => steady(random, field, &mut steps),
        4..=7 => mixed(random, field, &mut steps),
        _ => foreign(random, field, setup, &mut steps),
    }
    steps
}

/// Markings that nothing strays, each with as many advances as they need.
fn steady(random: &mut Random, field: &Field, steps: &mut Vec<Step>) {
    for _ in 0..random.between(1, 4) {
        steps.push(call(random, field, START));
        for _ in 0..random.between(1, 8) {
            steps.push(call(random, field, ADVANCE));
            if random.chance(30) {
                steps.push(call(random, field, LOOK));
            }
        }
        if random.chance(70) {
            let last = Step { number: MOST_BUDGET, ..call(random, field, ADVANCE) };
            steps.push(last);
        }
    }
    steps.push(call(random, field, LOOK));
}

fn mixed(random: &mut Random, field: &Field, steps: &mut Vec<Step>) {
    for _ in 0..random.between(1, 24) {
        let which = match random.below(40) {
            0..=9 => START,
            10..=23 => ADVANCE,
            24..=30 => LOOK,
            31..=37 => MARK,
            38 => PUT,
            _ => TAKE,
        };
        steps.push(call(random, field, which));
    }
}

/// Entries put on the list, or all of it taken away, behind the marking's back.
fn foreign(random: &mut Random, field: &Field, setup: &Setup, steps: &mut Vec<Step>) {
    for _ in 0..random.between(1, 3) {
        steps.push(call(random, field, START));
        if random.chance(70) {
            let states = u64::from(field.graph.states());
            let high = states.max(u64::from(setup.room));
            let state = if random.chance(80) { random.between(states, high) } else { random.below(states) };
            steps.push(Step { state: state as u32, number: 0, tagged: 1, ..call(random, field, PUT) });
        } else {
            for _ in 0..random.between(1, 3) {
                steps.push(call(random, field, TAKE));
            }
        }
        for _ in 0..random.between(1, 4) {
            let which = random.pick(&[ADVANCE, ADVANCE, LOOK, LOOK, TAKE, PUT]);
            steps.push(call(random, field, which));
        }
    }
}
