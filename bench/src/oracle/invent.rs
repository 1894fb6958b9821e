//! Invents random tasks of both kinds: few and many states, prices with many ties and with none, goals that are near,
//! far or out of reach.
use super::random::Random;
use super::task::{Action, Domain, FactSet, Pair, Scheme, Task};

/// How large a task may become.
#[derive(Clone, Copy, Debug)]
pub struct Size {
    pub states: u64,
    pub actions: u64,
    pub name: u64,
}

/// How prices are drawn within one task.
#[derive(Clone, Copy)]
enum Prices {
    Zero,
    One,
    Few(u64),
    Mixed,
    Wide,
}

fn draw_prices(random: &mut Random) -> Prices {
    match random.below(12) {
        0 => Prices::Zero,
        1 => Prices::One,
        2..=5 => Prices::Few(random.between(1, 5)),
        6..=7 => Prices::Mixed,
        _ => Prices::Wide,
    }
}

fn price(random: &mut Random, prices: Prices) -> u32 {
    let coins = match prices {
        Prices::Zero => 0,
        Prices::One => 1,
        Prices::Few(most) => random.between(0, most),
        Prices::Mixed => random.pick(&[0, 0, 1, 1, 2, 3, 10, 999_999, 1_000_000]),
        Prices::Wide => random.between(0, 1_000_000),
    };
    coins as u32
}

fn name(random: &mut Random, longest: u64) -> Vec<u8> {
    let length = random.between(1, longest);
    (0..length).map(|_| random.byte()).collect()
}

/// Up to `most` of the facts.
fn some_facts(random: &mut Random, facts: usize, most: u64) -> FactSet {
    let mut set = [false; 16];
    for _ in 0..random.between(0, most) {
        set[random.below(facts as u64) as usize] = true;
    }
    set
}

fn strips(random: &mut Random, size: Size) -> Domain {
    let most = u64::from(size.states.max(2).ilog2().min(16));
    let least = if random.chance(70) { most.div_ceil(2) } else { 1 };
    let facts = random.between(least, most) as usize;
    let most_wanted = random.pick(&[1, 3, facts as u64, facts as u64]);
    let mut goal = some_facts(random, facts, most_wanted);
    if goal == [false; 16] && !random.chance(5) {
        goal[random.below(facts as u64) as usize] = true;
    }
    Domain::Strips { facts, start: some_facts(random, facts, facts as u64), goal }
}

fn strips_scheme(random: &mut Random, facts: usize, walk: bool) -> Scheme {
    let any = |random: &mut Random| random.below(facts as u64) as usize;
    if walk {
        let mut adds = [false; 16];
        adds[any(random)] = true;
        return Scheme::Strips {
            preconditions: some_facts(random, facts, 1),
            adds,
            deletes: some_facts(random, facts, 1),
        };
    }
    let most = if random.chance(20) { 4 } else { 2 };
    let mut adds = some_facts(random, facts, 2);
    if adds == [false; 16] && random.chance(70) {
        adds[any(random)] = true;
    }
    Scheme::Strips { preconditions: some_facts(random, facts, most), adds, deletes: some_facts(random, facts, 2) }
}

fn finite_domain(random: &mut Random, size: Size) -> Domain {
    let mut counts: Vec<u8> = Vec::new();
    let mut states = 1;
    let wanted = random.between(1, 16) as usize;
    let widest = random.pick(&[2, 3, 4, 6, 16]);
    while counts.len() < wanted {
        let count = random.between(2, widest);
        if states * count > size.states && !counts.is_empty() {
            break;
        }
        states *= count;
        counts.push(count as u8);
    }
    let start = counts.iter().map(|&count| random.below(u64::from(count)) as u8).collect();
    let free = random.pick(&[0, 10, 30, 60]);
    let mut goal: Vec<Option<u8>> = Vec::new();
    for &count in &counts {
        let value = random.below(u64::from(count)) as u8;
        goal.push((!random.chance(free)).then_some(value));
    }
    Domain::FiniteDomain { counts, start, goal }
}

/// Up to `most` pairs, their variables rising.
fn some_pairs(random: &mut Random, counts: &[u8], most: u64) -> Vec<Pair> {
    let mut left = random.between(0, most);
    let mut pairs = Vec::new();
    for (variable, &count) in counts.iter().enumerate() {
        let behind = (counts.len() - variable) as u64;
        if random.below(behind) < left {
            pairs.push((variable as u8, random.below(u64::from(count)) as u8));
            left -= 1;
        }
    }
    pairs
}

/// A step of one variable to a next value, perhaps only where another has some value, perhaps with another effect.
fn step_scheme(random: &mut Random, counts: &[u8]) -> Scheme {
    let variable = random.below(counts.len() as u64) as u8;
    let count = counts[usize::from(variable)];
    let value = random.below(u64::from(count)) as u8;
    let next = if random.chance(70) { value + 1 } else { value + count - 1 } % count;
    let mut preconditions = vec![(variable, value)];
    let mut effects = vec![(variable, next)];
    if variable > 0 && random.chance(25) {
        let other = variable - 1;
        let list = if random.chance(60) { &mut preconditions } else { &mut effects };
        list.insert(0, (other, random.below(u64::from(counts[usize::from(other)])) as u8));
    }
    Scheme::FiniteDomain { preconditions, effects }
}

fn value_scheme(random: &mut Random, counts: &[u8], walk: bool) -> Scheme {
    if walk {
        return step_scheme(random, counts);
    }
    let most = if random.chance(10) { counts.len() as u64 } else { 2.min(counts.len() as u64) };
    Scheme::FiniteDomain { preconditions: some_pairs(random, counts, most), effects: some_pairs(random, counts, most) }
}

/// A task of at most that size. Tasks in which most actions are small steps need long solutions.
pub fn task(random: &mut Random, size: Size) -> Task {
    let domain = if random.chance(50) { strips(random, size) } else { finite_domain(random, size) };
    let prices = draw_prices(random);
    let walks = random.pick(&[0, 50, 90, 100]);
    let fewest = if random.chance(70) { size.actions.div_ceil(2) } else { 1 };
    let mut actions = Vec::new();
    for _ in 0..random.between(fewest, size.actions) {
        let walk = random.chance(walks);
        let scheme = match &domain {
            Domain::Strips { facts, .. } => strips_scheme(random, *facts, walk),
            Domain::FiniteDomain { counts, .. } => value_scheme(random, counts, walk),
        };
        actions.push(Action { price: price(random, prices), scheme, name: name(random, size.name) });
    }
    Task { domain, actions }
}
