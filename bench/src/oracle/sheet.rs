//! Reads a sheet by the words of docs/FORMAT.md and docs/REFUSALS.md alone: either the task, or the number and the
//! place of the first check that fails.
use super::task::{Action, Domain, FactSet, Pair, Scheme, Task};

#[derive(Clone, Copy, Debug, PartialEq, Eq)]
pub struct Refused {
    pub number: u8,
    pub place: u64,
}

type Answer<T> = Result<T, Refused>;

const LONGEST: usize = 65_536;
const MOST_STATES: u128 = 65_536;
const MOST_COINS: u32 = 1_000_000;

fn check(holds: bool, number: u8, place: usize) -> Answer<()> {
    if holds { Ok(()) } else { Err(Refused { number, place: place as u64 }) }
}

fn word(bytes: &[u8], at: usize) -> u32 {
    bytes[at..at + 4].iter().fold(0, |number, &byte| number * 256 + u32::from(byte))
}

fn half(bytes: &[u8], at: usize) -> usize {
    usize::from(bytes[at]) * 256 + usize::from(bytes[at + 1])
}

/// How long the head is, as far as the first check goes.
fn head_length(sheet: &[u8]) -> usize {
    match (sheet[5], sheet[6]) {
        (1, _) => 17,
        (2, variables @ 1..=16) => 9 + 3 * usize::from(variables),
        _ => 9,
    }
}

pub fn read(sheet: &[u8]) -> Answer<Task> {
    let given = sheet.len();
    check((9..=LONGEST).contains(&given), 1, given)?;
    check(word(sheet, 1) as usize == given, 1, given)?;
    check(head_length(sheet) <= given, 1, given)?;
    check(sheet[0] == 1, 2, 0)?;
    check(sheet[5] == 1 || sheet[5] == 2, 3, 5)?;
    check((1..=16).contains(&sheet[6]), 4, 6)?;
    let actions = half(sheet, 7);
    check((1..=512).contains(&actions), 4, 7)?;
    let domain = if sheet[5] == 1 { read_facts(sheet)? } else { read_variables(sheet)? };
    let actions = read_records(sheet, head_length(sheet), actions, &domain)?;
    Ok(Task { domain, actions })
}

/// The set that a word names, if each of its facts is there.
fn fact_set(word: u32, facts: usize) -> Option<FactSet> {
    let mut set = [false; 16];
    for fact in 0..32 {
        if (word >> fact) % 2 == 1 {
            if fact >= facts {
                return None;
            }
            set[fact] = true;
        }
    }
    Some(set)
}

fn read_facts(sheet: &[u8]) -> Answer<Domain> {
    let facts = usize::from(sheet[6]);
    let start = fact_set(word(sheet, 9), facts).ok_or(Refused { number: 5, place: 9 })?;
    let goal = fact_set(word(sheet, 13), facts).ok_or(Refused { number: 5, place: 13 })?;
    Ok(Domain::Strips { facts, start, goal })
}

fn read_variables(sheet: &[u8]) -> Answer<Domain> {
    let variables = usize::from(sheet[6]);
    let counts = sheet[9..9 + variables].to_vec();
    for (index, count) in counts.iter().enumerate() {
        check((2..=16).contains(count), 4, 9 + index)?;
    }
    let states = counts.iter().fold(1, |product: u128, &count| product * u128::from(count));
    check(states <= MOST_STATES, 4, 6)?;
    let start = sheet[9 + variables..9 + 2 * variables].to_vec();
    for (index, value) in start.iter().enumerate() {
        check(*value < counts[index], 5, 9 + variables + index)?;
    }
    let mut goal = Vec::new();
    for (index, &count) in counts.iter().enumerate() {
        let at = 9 + 2 * variables + index;
        let value = sheet[at];
        check(value == 255 || value < count, 5, at)?;
        goal.push((value != 255).then_some(value));
    }
    Ok(Domain::FiniteDomain { counts, start, goal })
}

fn read_records(sheet: &[u8], from: usize, actions: usize, domain: &Domain) -> Answer<Vec<Action>> {
    let mut at = from;
    let mut records = Vec::new();
    for _ in 0..actions {
        check(at + 2 <= sheet.len(), 6, at)?;
        let end = at + 2 + half(sheet, at);
        check(end <= sheet.len(), 6, at)?;
        records.push(read_record(&sheet[at + 2..end], at, domain)?);
        at = end;
    }
    check(at == sheet.len(), 6, at)?;
    Ok(records)
}

/// A record by what follows its length; `at` is its first byte in the sheet.
fn read_record(body: &[u8], at: usize, domain: &Domain) -> Answer<Action> {
    let framed = match domain {
        Domain::Strips { .. } => (body.len() >= 16).then_some(16),
        Domain::FiniteDomain { counts, .. } => lists_end(body, counts.len()),
    };
    let name_at = framed.ok_or(Refused { number: 6, place: at as u64 })?;
    let name = body[name_at..].to_vec();
    check((1..=32).contains(&name.len()), 6, at)?;
    let price = word(body, 0);
    check(price <= MOST_COINS, 7, at)?;
    let scheme = match domain {
        Domain::Strips { facts, .. } => fact_scheme(body, *facts),
        Domain::FiniteDomain { counts, .. } => value_scheme(body, counts),
    };
    Ok(Action { price, scheme: scheme.ok_or(Refused { number: 8, place: at as u64 })?, name })
}

/// Where the second list ends, if both fit.
fn lists_end(body: &[u8], variables: usize) -> Option<usize> {
    let mut at = 4;
    for _ in 0..2 {
        let pairs = usize::from(*body.get(at)?);
        if pairs > variables {
            return None;
        }
        at += 1 + 2 * pairs;
    }
    (at <= body.len()).then_some(at)
}

fn fact_scheme(body: &[u8], facts: usize) -> Option<Scheme> {
    let preconditions = fact_set(word(body, 4), facts)?;
    let adds = fact_set(word(body, 8), facts)?;
    let deletes = fact_set(word(body, 12), facts)?;
    Some(Scheme::Strips { preconditions, adds, deletes })
}

fn value_scheme(body: &[u8], counts: &[u8]) -> Option<Scheme> {
    let preconditions = pairs(body, 4, counts)?;
    let effects = pairs(body, 5 + 2 * preconditions.len(), counts)?;
    Some(Scheme::FiniteDomain { preconditions, effects })
}

/// The pairs of the list that begins at `at`, if they name what is there and their variables rise.
fn pairs(body: &[u8], at: usize, counts: &[u8]) -> Option<Vec<Pair>> {
    let mut list: Vec<Pair> = Vec::new();
    for index in 0..usize::from(body[at]) {
        let (variable, value) = (body[at + 1 + 2 * index], body[at + 2 + 2 * index]);
        if value >= *counts.get(usize::from(variable))? {
            return None;
        }
        if list.last().is_some_and(|last| last.0 >= variable) {
            return None;
        }
        list.push((variable, value));
    }
    Some(list)
}
