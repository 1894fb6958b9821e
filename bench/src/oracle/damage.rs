//! Makes random sheets, most of them damaged with a purpose, so that every check of the reader is the first to fail at
//! many places.
use super::invent::{self, Size};
use super::random::Random;
use super::task::{Action, Domain, Pair, Scheme, Task};
use super::writer::{Written, write};

fn size(random: &mut Random) -> Size {
    match random.below(1000) {
        0..=879 => Size { states: random.pick(&[2, 8, 64, 65_536]), actions: 4, name: 6 },
        880..=979 => Size { states: 65_536, actions: 40, name: 32 },
        _ => Size { states: 65_536, actions: 512, name: 32 },
    }
}

/// A random sheet; about a sixth of them are left whole.
pub fn sheet(random: &mut Random) -> Vec<u8> {
    match random.below(1000) {
        0..=39 => noise(random),
        40..=79 => near_noise(random),
        80 => long(random),
        81..=230 => write(&whole(random)).bytes,
        _ => damaged(random),
    }
}

fn whole(random: &mut Random) -> Task {
    let size = size(random);
    invent::task(random, size)
}

fn noise(random: &mut Random) -> Vec<u8> {
    let length = if random.chance(30) { random.below(12) } else { random.below(120) };
    (0..length).map(|_| random.byte()).collect()
}

/// Small random bytes behind a head that looks right.
fn near_noise(random: &mut Random) -> Vec<u8> {
    let length = random.between(7, 90);
    let most = random.pick(&[2, 4, 18, 40]);
    let mut bytes: Vec<u8> = (0..length).map(|_| random.below(most) as u8).collect();
    bytes[0] = 1;
    bytes[5] = random.between(1, 2) as u8;
    bytes[6] = random.between(1, 4) as u8;
    let mut written = Written { bytes, records: Vec::new() };
    written.patch_length();
    written.bytes
}

/// About as long as a sheet can be, or longer.
fn long(random: &mut Random) -> Vec<u8> {
    let mut written = write(&whole(random));
    let length = random.pick(&[65_535, 65_536, 65_537, 65_538, 70_000, 131_072]);
    let filling = random.byte();
    written.bytes.resize(length, filling);
    if random.chance(90) {
        written.patch_length();
    }
    written.bytes
}

/// A sheet with one damage, seldom more, and mostly with the right length behind it.
fn damaged(random: &mut Random) -> Vec<u8> {
    let mut task = whole(random);
    if random.chance(40) {
        damage_content(random, &mut task);
    }
    let mut written = write(&task);
    let times = random.pick(&[0, 1, 1, 1, 1, 2, 3]);
    for _ in 0..times {
        damage_bytes(random, &mut written);
    }
    if random.chance(92) {
        written.patch_length();
    }
    if random.chance(4) {
        damage_length(random, &mut written.bytes);
    }
    written.bytes
}

fn damage_length(random: &mut Random, bytes: &mut [u8]) {
    let at = random.between(1, 4) as usize;
    if at < bytes.len() {
        bytes[at] ^= random.between(1, 255) as u8;
    }
}

/// Damage that is easier done to the content than to its bytes.
fn damage_content(random: &mut Random, task: &mut Task) {
    let which = random.below(task.actions.len() as u64) as usize;
    let domain = task.domain.clone();
    let action = &mut task.actions[which];
    match random.below(4) {
        0 => action.price = random.pick(&[1_000_000, 1_000_001, 1_000_002, 1 << 24, 1 << 31, u32::MAX]),
        1 => action.name = vec![random.byte(); random.pick(&[0, 32, 33, 34, 300])],
        2 => damage_scheme(random, action, &domain),
        _ => damage_head(random, task),
    }
}

fn damage_scheme(random: &mut Random, action: &mut Action, domain: &Domain) {
    match (&mut action.scheme, domain) {
        (Scheme::Strips { preconditions, adds, deletes }, Domain::Strips { facts, .. }) => {
            let fact = (*facts + random.below(3) as usize).min(15);
            match random.below(3) {
                0 => preconditions[fact] = true,
                1 => adds[fact] = true,
                _ => deletes[fact] = true,
            }
        }
        (Scheme::FiniteDomain { preconditions, effects }, Domain::FiniteDomain { counts, .. }) => {
            let list = if random.chance(50) { preconditions } else { effects };
            damage_list(random, list, counts);
        }
        _ => (),
    }
}

fn damage_list(random: &mut Random, list: &mut Vec<Pair>, counts: &[u8]) {
    let variables = counts.len() as u8;
    match random.below(6) {
        0 => list.push((variables, 0)),
        1 => list.reverse(),
        2 => {
            let variable = random.below(u64::from(variables)) as u8;
            list.push((variable, counts[usize::from(variable)]));
        }
        3 => list.extend(list.first().copied()),
        4 => list.resize(counts.len() + random.below(3) as usize, (0, 0)),
        _ => *list = (0..variables).map(|variable| (variable, random.below(3) as u8)).collect(),
    }
}

fn damage_head(random: &mut Random, task: &mut Task) {
    match &mut task.domain {
        Domain::Strips { facts, start, goal } => {
            let fact = (*facts + random.below(3) as usize).min(15);
            let set = if random.chance(50) { start } else { goal };
            set[fact] = true;
        }
        Domain::FiniteDomain { counts, start, goal } => {
            let variable = random.below(counts.len() as u64) as usize;
            let near = counts[variable].wrapping_add(random.below(2) as u8);
            match random.below(4) {
                0 => start[variable] = random.pick(&[near, 16, 254, 255]),
                1 => goal[variable] = random.pick(&[Some(near), Some(254), Some(255), None]),
                2 => counts[variable] = random.pick(&[0, 1, 2, 16, 17, 255]),
                _ => widen(random, counts, start, goal),
            }
        }
    }
}

/// So many values that there are about as many states as may be, or more.
fn widen(random: &mut Random, counts: &mut Vec<u8>, start: &mut Vec<u8>, goal: &mut Vec<Option<u8>>) {
    let (count, variables) =
        random.pick(&[(16, 4), (16, 5), (16, 16), (2, 16), (4, 8), (4, 9), (3, 11), (15, 5), (6, 6)]);
    *counts = vec![count; variables];
    *start = vec![0; variables];
    *goal = vec![None; variables];
    if random.chance(30) {
        counts[random.below(variables as u64) as usize] = random.between(2, 16) as u8;
    }
}

fn damage_bytes(random: &mut Random, written: &mut Written) {
    let length = written.bytes.len() as u64;
    if length < 10 {
        return;
    }
    let at = random.below(length) as usize;
    match random.below(12) {
        0 => written.bytes.truncate(at),
        1 => written.bytes.extend((0..random.below(9)).map(|count| count as u8)),
        2 => written.bytes[at] ^= 1 << random.below(8),
        3 => written.bytes[at] = random.byte(),
        4 => written.bytes[0] = random.pick(&[0, 2, 255]),
        5 => written.bytes[5] = random.pick(&[0, 1, 2, 3, 255]),
        6 => written.bytes[6] = random.pick(&[0, 1, 2, 15, 16, 17, 255]),
        7 => damage_action_count(random, written),
        8 => written.bytes.insert(at, random.below(5) as u8),
        9 => drop(written.bytes.remove(at)),
        10 => written.bytes[9 + random.below((length - 9).min(48)) as usize] = random.pick(&[0, 1, 17, 254, 255]),
        _ => damage_record(random, written),
    }
}

fn damage_action_count(random: &mut Random, written: &mut Written) {
    let count = written.records.len() as u16;
    let other = random.pick(&[0, count.wrapping_sub(1), count + 1, 512, 513, 65_535]);
    written.bytes[7..9].copy_from_slice(&other.to_be_bytes());
}

/// Changes the length, the price, the first bytes of a set or a list, or the last byte of a record.
fn damage_record(random: &mut Random, written: &mut Written) {
    if written.records.is_empty() {
        return;
    }
    let record = written.records[random.below(written.records.len() as u64) as usize];
    let offset = random.pick(&[0, 1, 1, 1, 2, 3, 6, 7, 8, 9, 10, 11, 13, 14, 17]);
    if let Some(byte) = written.bytes.get_mut(record + offset) {
        let old = *byte;
        *byte = random.pick(&[0, 1, 17, 255, old.wrapping_sub(1), old.wrapping_add(1), old ^ 128]);
    }
}
