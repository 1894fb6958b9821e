//! Writes a task as a sheet. It checks nothing, so that contents that are not valid can be written as well.
use super::task::{Action, Domain, FactSet, Pair, Scheme, Task};

/// A sheet, and where its records begin.
#[derive(Clone, Debug)]
pub struct Written {
    pub bytes: Vec<u8>,
    pub records: Vec<usize>,
}

impl Written {
    /// Writes the true length into the head.
    pub fn patch_length(&mut self) {
        if self.bytes.len() >= 5 {
            let length = (self.bytes.len() as u32).to_be_bytes();
            self.bytes[1..5].copy_from_slice(&length);
        }
    }
}

fn put_set(bytes: &mut Vec<u8>, set: &FactSet) {
    let word = (0..16).filter(|&fact| set[fact]).fold(0u32, |word, fact| word + (1 << fact));
    bytes.extend(word.to_be_bytes());
}

fn put_pairs(bytes: &mut Vec<u8>, pairs: &[Pair]) {
    bytes.push(pairs.len() as u8);
    for (variable, value) in pairs {
        bytes.extend([variable, value]);
    }
}

fn put_head(bytes: &mut Vec<u8>, task: &Task) {
    let (kind, number) = match &task.domain {
        Domain::Strips { facts, .. } => (1, *facts as u8),
        Domain::FiniteDomain { counts, .. } => (2, counts.len() as u8),
    };
    bytes.extend([1, 0, 0, 0, 0, kind, number]);
    bytes.extend((task.actions.len() as u16).to_be_bytes());
    match &task.domain {
        Domain::Strips { start, goal, .. } => {
            put_set(bytes, start);
            put_set(bytes, goal);
        }
        Domain::FiniteDomain { counts, start, goal } => {
            bytes.extend(counts);
            bytes.extend(start);
            bytes.extend(goal.iter().map(|wanted| wanted.unwrap_or(255)));
        }
    }
}

fn put_record(bytes: &mut Vec<u8>, action: &Action) {
    let mut body = action.price.to_be_bytes().to_vec();
    match &action.scheme {
        Scheme::Strips { preconditions, adds, deletes } => {
            put_set(&mut body, preconditions);
            put_set(&mut body, adds);
            put_set(&mut body, deletes);
        }
        Scheme::FiniteDomain { preconditions, effects } => {
            put_pairs(&mut body, preconditions);
            put_pairs(&mut body, effects);
        }
    }
    body.extend(&action.name);
    bytes.extend((body.len() as u16).to_be_bytes());
    bytes.extend(body);
}

pub fn write(task: &Task) -> Written {
    let mut written = Written { bytes: Vec::new(), records: Vec::new() };
    put_head(&mut written.bytes, task);
    for action in &task.actions {
        written.records.push(written.bytes.len());
        put_record(&mut written.bytes, action);
    }
    written.patch_length();
    written
}
