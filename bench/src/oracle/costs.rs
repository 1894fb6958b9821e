//! Exact costs-to-go of every state, by sweeping over all transitions until nothing changes. There is no priority queue
//! and no search here, on purpose: this has to share nothing with what it is compared with.
use super::task::Task;

/// Coins, then actions. Where only coins count, the second number is always zero.
pub type Cost = (u64, u64);

#[derive(Clone, Copy, Debug)]
pub struct Edge {
    pub action: u16,
    pub target: u32,
    pub coins: u64,
}

/// Every transition of a task, and which of its states are goals.
pub struct Graph {
    edges: Vec<Edge>,
    /// Where each state's edges begin, and at last where they all end.
    first: Vec<usize>,
    pub goal: Vec<bool>,
    pub actions: usize,
}

pub fn sum(one: Cost, other: Cost) -> Cost {
    (one.0 + other.0, one.1 + other.1)
}

impl Edge {
    /// What the transition costs; `counted` says whether actions count behind coins.
    pub fn charge(&self, counted: bool) -> Cost {
        (self.coins, u64::from(counted))
    }
}

impl Graph {
    pub fn of(task: &Task) -> Graph {
        let states = task.states();
        let mut graph = Graph { edges: Vec::new(), first: vec![0], goal: Vec::new(), actions: task.actions.len() };
        for state in 0..states {
            for action in 0..task.actions.len() {
                if let Some((target, coins)) = task.transition(state, action) {
                    graph.edges.push(Edge { action: action as u16, target, coins });
                }
            }
            graph.first.push(graph.edges.len());
            graph.goal.push(task.is_goal(state));
        }
        graph
    }

    pub fn states(&self) -> u32 {
        self.goal.len() as u32
    }

    /// The transitions from a state, by rising action.
    pub fn from(&self, state: u32) -> &[Edge] {
        &self.edges[self.first[state as usize]..self.first[state as usize + 1]]
    }

    pub fn edge(&self, state: u32, action: u16) -> Option<&Edge> {
        self.from(state).iter().find(|edge| edge.action == action)
    }

    /// The least cost that any solution from the state has by what is known of the others so far.
    fn improved(&self, state: u32, known: &[Option<Cost>], counted: bool) -> Option<Cost> {
        if self.goal[state as usize] {
            return Some((0, 0));
        }
        let onward = |edge: &Edge| known[edge.target as usize].map(|rest| sum(edge.charge(counted), rest));
        self.from(state).iter().filter_map(onward).min()
    }

    /// The cost of a cheapest solution from each state; none where there is no solution.
    pub fn costs_to_go(&self, counted: bool) -> Vec<Option<Cost>> {
        let mut known: Vec<Option<Cost>> = vec![None; self.goal.len()];
        let mut forward = false;
        loop {
            let mut changed = false;
            for step in 0..self.states() {
                let state = if forward { step } else { self.states() - 1 - step };
                let better = self.improved(state, &known, counted);
                if better != known[state as usize] {
                    known[state as usize] = better;
                    changed = true;
                }
            }
            if !changed {
                return known;
            }
            forward = !forward;
        }
    }
}

#[derive(Clone, Copy, Debug, PartialEq, Eq)]
pub enum Verdict {
    Best,
    Other,
    Stuck,
}

/// What is true of an applicable action in a state that is no goal.
pub fn verdict(graph: &Graph, costs: &[Option<Cost>], state: u32, edge: &Edge, counted: bool) -> Verdict {
    debug_assert!(!graph.goal[state as usize]);
    let Some(cheapest) = costs[state as usize] else { return Verdict::Stuck };
    match costs[edge.target as usize] {
        Some(rest) if sum(edge.charge(counted), rest) == cheapest => Verdict::Best,
        _ => Verdict::Other,
    }
}
