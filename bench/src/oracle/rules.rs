//! The rules of a search, followed word by word and through all choices among first entries, for as long as that stays
//! small. It gives which status is possible after each number of turns, whatever the heuristic is worth.
use super::costs::{Cost, Edge, Graph, Verdict, sum};
use super::heuristic::Estimates;

/// A cost and whether it is tagged.
pub type Labelled = (Cost, bool);

/// A search between two turns: the best path found to each state, and which states wait.
#[derive(Clone, Default, PartialEq)]
pub struct Snapshot {
    records: Vec<Option<Labelled>>,
    waits: Vec<bool>,
}

/// What may be after some number of turns: the search is open, or it ended just then.
#[derive(Clone, Copy, Default)]
struct Possible {
    open: bool,
    verdicts: [bool; 3],
}

/// What may be after each number of turns, as far as it was followed.
pub struct Course {
    after: Vec<Possible>,
}

pub struct Rules<'a> {
    pub graph: &'a Graph,
    pub estimates: &'a Estimates,
    pub counted: bool,
}

/// One entry is earlier when its front is before, or the fronts are equal and only it is tagged. The same rule says
/// when an offer is better than a record.
pub fn earlier(one: Labelled, other: Labelled) -> bool {
    one.0 < other.0 || (one.0 == other.0 && one.1 && !other.1)
}

impl Rules<'_> {
    pub fn start(&self, state: u32, edge: &Edge) -> Snapshot {
        let states = self.graph.goal.len();
        let mut search = Snapshot { records: vec![None; states], waits: vec![false; states] };
        self.offer(&mut search, state, ((0, 0), false));
        self.offer(&mut search, edge.target, (edge.charge(self.counted), true));
        search
    }

    fn offer(&self, search: &mut Snapshot, state: u32, label: Labelled) {
        let record = &mut search.records[state as usize];
        if record.is_some_and(|known| !earlier(label, known)) {
            return;
        }
        *record = Some(label);
        if self.estimates[state as usize].is_some() {
            search.waits[state as usize] = true;
        }
    }

    /// The front and tag of each state that waits.
    pub fn waiting(&self, search: &Snapshot) -> Vec<(u32, Labelled)> {
        let mut entries = Vec::new();
        for (state, record) in search.records.iter().enumerate() {
            if let (true, Some((cost, tagged)), Some(estimate)) = (search.waits[state], record, self.estimates[state]) {
                entries.push((state as u32, (sum(*cost, (estimate, 0)), *tagged)));
            }
        }
        entries
    }

    /// The states of the first entries: several where they are equal, none where nothing waits.
    fn firsts(&self, search: &Snapshot) -> Vec<u32> {
        let mut firsts: Vec<u32> = Vec::new();
        let mut least = ((u64::MAX, u64::MAX), false);
        for (state, front) in self.waiting(search) {
            if earlier(front, least) {
                firsts.clear();
                least = front;
            }
            if front == least {
                firsts.push(state);
            }
        }
        firsts
    }

    /// Makes a turn on the entry of a state; a verdict if it ends the search.
    fn turn(&self, search: &mut Snapshot, state: u32) -> Option<Verdict> {
        search.waits[state as usize] = false;
        let (cost, tagged) = search.records[state as usize].expect("what waits is known");
        if self.graph.goal[state as usize] {
            return Some(if tagged { Verdict::Best } else { Verdict::Other });
        }
        for edge in self.graph.from(state) {
            self.offer(search, edge.target, (sum(cost, edge.charge(self.counted)), tagged));
        }
        search.waits.iter().all(|waits| !waits).then_some(Verdict::Stuck)
    }

    /// Follows the rules for at most `turns` turns and about as many as `choices` turns made on choices.
    pub fn course(&self, start: Snapshot, turns: u64, mut choices: usize) -> Course {
        if self.firsts(&start).is_empty() {
            return Course { after: vec![Possible { open: false, verdicts: [false, false, true] }] };
        }
        let mut course = Course { after: vec![Possible { open: true, verdicts: [false; 3] }] };
        let mut level = vec![start];
        while !level.is_empty() && course.known() < turns {
            let mut possible = Possible::default();
            let mut next: Vec<Snapshot> = Vec::new();
            for mut search in level {
                let firsts = self.firsts(&search);
                let Some(left) = choices.checked_sub(firsts.len() - 1) else { return course };
                choices = left;
                for (number, &state) in firsts.iter().enumerate() {
                    let last = number + 1 == firsts.len();
                    let mut search = if last { std::mem::take(&mut search) } else { search.clone() };
                    match self.turn(&mut search, state) {
                        Some(verdict) => possible.verdicts[verdict as usize] = true,
                        None if next.contains(&search) => (),
                        None => next.push(search),
                    }
                }
            }
            possible.open = !next.is_empty();
            course.after.push(possible);
            level = next;
        }
        course
    }
}

impl Course {
    /// Up to how many turns it was followed.
    pub fn known(&self) -> u64 {
        self.after.len() as u64 - 1
    }

    /// The verdicts that may come, each with its turns, and whether the search may be open, once turns up to `reach`
    /// were made, `from` of them before. Nothing where it was not followed that far.
    pub fn outcomes(&self, from: u64, reach: u64) -> (Vec<(Verdict, u64)>, Option<bool>) {
        let mut endings = Vec::new();
        for (turns, possible) in (0u64..).zip(&self.after) {
            if turns > reach || (turns <= from && turns > 0) {
                continue;
            }
            for verdict in [Verdict::Best, Verdict::Other, Verdict::Stuck] {
                if possible.verdicts[verdict as usize] {
                    endings.push((verdict, turns));
                }
            }
        }
        let open = self.after[reach.min(self.known()) as usize].open;
        (endings, if open && reach > self.known() { None } else { Some(open) })
    }
}
