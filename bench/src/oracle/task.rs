//! Planning tasks by their definition: facts one by one, variables one by one, nothing packed. This is what the proved
//! library's tasks are compared with, so it takes the plainest form and not the fastest.

/// Which facts are in a set, fact by fact.
pub type FactSet = [bool; 16];

/// A variable and a value of it.
pub type Pair = (u8, u8);

#[derive(Clone, Debug, PartialEq)]
pub enum Domain {
    Strips { facts: usize, start: FactSet, goal: FactSet },
    FiniteDomain { counts: Vec<u8>, start: Vec<u8>, goal: Vec<Option<u8>> },
}

/// What an action needs and does.
#[derive(Clone, Debug, PartialEq)]
pub enum Scheme {
    Strips { preconditions: FactSet, adds: FactSet, deletes: FactSet },
    FiniteDomain { preconditions: Vec<Pair>, effects: Vec<Pair> },
}

#[derive(Clone, Debug, PartialEq)]
pub struct Action {
    pub price: u32,
    pub scheme: Scheme,
    pub name: Vec<u8>,
}

#[derive(Clone, Debug, PartialEq)]
pub struct Task {
    pub domain: Domain,
    pub actions: Vec<Action>,
}

/// The facts that hold in a state.
fn facts_of(state: u32) -> FactSet {
    let mut set = [false; 16];
    let mut rest = state;
    for holds in &mut set {
        *holds = rest % 2 == 1;
        rest /= 2;
    }
    set
}

/// The state in which these facts hold.
fn state_of_facts(set: &FactSet) -> u32 {
    set.iter().rev().fold(0, |number, &holds| number * 2 + u32::from(holds))
}

/// The values of the variables in a state.
fn values_of(counts: &[u8], state: u32) -> Vec<u8> {
    let mut rest = state;
    let mut values = Vec::with_capacity(counts.len());
    for &count in counts {
        values.push((rest % u32::from(count)) as u8);
        rest /= u32::from(count);
    }
    values
}

/// The state with these values: v0 + n0 * (v1 + n1 * (...)).
fn state_of_values(counts: &[u8], values: &[u8]) -> u32 {
    let pairs = counts.iter().zip(values).rev();
    pairs.fold(0, |number, (&count, &value)| u32::from(value) + u32::from(count) * number)
}

fn apply_facts(state: u32, scheme: &Scheme) -> Option<u32> {
    let Scheme::Strips { preconditions, adds, deletes } = scheme else { return None };
    let mut set = facts_of(state);
    for fact in 0..16 {
        if preconditions[fact] && !set[fact] {
            return None;
        }
    }
    for fact in 0..16 {
        if deletes[fact] {
            set[fact] = false;
        }
    }
    for fact in 0..16 {
        if adds[fact] {
            set[fact] = true;
        }
    }
    Some(state_of_facts(&set))
}

fn apply_values(counts: &[u8], state: u32, scheme: &Scheme) -> Option<u32> {
    let Scheme::FiniteDomain { preconditions, effects } = scheme else { return None };
    let mut values = values_of(counts, state);
    for &(variable, value) in preconditions {
        if values[usize::from(variable)] != value {
            return None;
        }
    }
    for &(variable, value) in effects {
        values[usize::from(variable)] = value;
    }
    Some(state_of_values(counts, &values))
}

impl Task {
    /// The number of states.
    pub fn states(&self) -> u32 {
        match &self.domain {
            Domain::Strips { facts, .. } => (0..*facts).fold(1, |number, _| number * 2),
            Domain::FiniteDomain { counts, .. } => counts.iter().map(|&count| u32::from(count)).product(),
        }
    }

    /// Where the action leads from the state and for how many coins, if it is applicable there.
    pub fn transition(&self, state: u32, action: usize) -> Option<(u32, u64)> {
        let Action { price, scheme, .. } = self.actions.get(action)?;
        let target = match &self.domain {
            Domain::Strips { .. } => apply_facts(state, scheme)?,
            Domain::FiniteDomain { counts, .. } => apply_values(counts, state, scheme)?,
        };
        Some((target, u64::from(*price)))
    }

    pub fn is_goal(&self, state: u32) -> bool {
        match &self.domain {
            Domain::Strips { goal, .. } => {
                let set = facts_of(state);
                (0..16).all(|fact| !goal[fact] || set[fact])
            }
            Domain::FiniteDomain { counts, goal, .. } => {
                let values = values_of(counts, state);
                values.iter().zip(goal).all(|(value, wanted)| wanted.is_none_or(|wanted| wanted == *value))
            }
        }
    }
}
