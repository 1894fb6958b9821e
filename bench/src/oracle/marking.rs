//! Follows a marking along the answers that it gave, call by call: all of an answer where the rules fix it, else the
//! bounds within which it has to be.
use super::rules::{Labelled, earlier};
use super::tally::Tally;
use super::world::{Grant, Judged, List, OPEN, STUCK, Subject, World, answered, refused, same};
use crate::proved::{ADVANCE, LOOK, MARK, PUT, Row, START, Step};

const FRESH: u8 = 0;

pub struct Marking<'a> {
    world: World<'a>,
    status: u8,
    /// Not known after a strayed marking met a foreign entry.
    turns: Option<u64>,
    granted: u64,
    subject: Option<Subject>,
    strayed: bool,
    list: Option<List>,
}

impl<'a> Marking<'a> {
    pub fn new(world: World<'a>) -> Marking<'a> {
        let list = Some(List { waiting: Vec::new(), known: Vec::new() });
        Marking { world, status: FRESH, turns: Some(0), granted: 0, subject: None, strayed: false, list }
    }

    pub fn judge(&mut self, tally: &mut Tally, step: &Step, row: &Row) -> Judged {
        match step.call {
            START => self.start(tally, step, row),
            ADVANCE => self.advance(tally, step, row),
            LOOK => self.look(row),
            MARK => self.mark(tally, step, row),
            PUT => self.put(step, row),
            _ => self.take(row),
        }
    }

    fn start(&mut self, tally: &mut Tally, step: &Step, row: &Row) -> Judged {
        if let Some(refusal) = self.world.refusal(step) {
            return same(row, refusal);
        }
        let (subject, list) = self.world.subject(step);
        self.status = if list.waiting.is_empty() { STUCK } else { OPEN };
        self.turns = Some(0);
        self.granted = 0;
        self.strayed = false;
        self.list = Some(list);
        self.world.promised(tally, &subject, 0, row)?;
        self.subject = Some(subject);
        same(row, answered(self.status, 0))
    }

    fn advance(&mut self, tally: &mut Tally, step: &Step, row: &Row) -> Judged {
        let states = self.world.states();
        if self.world.short {
            return same(row, refused(9, states));
        }
        if step.number > 1_000_000 {
            return same(row, refused(12, 0));
        }
        let Some(turns) = self.turns else { return self.stray(row) };
        let Some(subject) = self.subject.clone().filter(|_| self.status == OPEN) else {
            return same(row, refused(17, turns));
        };
        if step.number == 0 {
            return same(row, answered(OPEN, turns));
        }
        if self.strayed {
            return match self.list.as_ref().and_then(|list| list.foreign(states)) {
                Some(place) => same(row, refused(18, place)),
                None => self.stray(row),
            };
        }
        self.granted += u64::from(step.number);
        self.list = None;
        self.status = row.status;
        self.turns = Some(u64::from(row.turns));
        let grant = Grant { turns, budget: u64::from(step.number), granted: self.granted };
        self.world.judge(tally, &subject, grant, row)
    }

    /// Any answer will do but a refusal that is not 18.
    fn stray(&mut self, row: &Row) -> Judged {
        self.list = None;
        self.status = row.status;
        self.turns = (row.number == 0).then_some(u64::from(row.turns));
        match row.number {
            0 => Ok(false),
            18 => {
                self.status = OPEN;
                Ok(false)
            }
            _ => Err("an answer or refusal 18".to_string()),
        }
    }

    fn look(&mut self, row: &Row) -> Judged {
        let Some(turns) = self.turns else {
            self.turns = Some(u64::from(row.turns));
            return same(row, answered(OPEN, u64::from(row.turns)));
        };
        same(row, answered(self.status, turns))
    }

    fn mark(&mut self, tally: &mut Tally, step: &Step, row: &Row) -> Judged {
        if let Some(refusal) = self.world.refusal(step) {
            return same(row, refusal);
        }
        self.strayed = true;
        self.list = None;
        let (subject, _) = self.world.subject(step);
        let grant = Grant { turns: 0, budget: subject.limit, granted: subject.limit };
        self.world.judge(tally, &subject, grant, row)
    }

    fn put(&mut self, step: &Step, row: &Row) -> Judged {
        let done = step.state < self.world.room;
        if done {
            self.strayed = true;
            if let Some(list) = &mut self.list {
                list.waiting.retain(|entry| entry.0 != step.state);
                // A front of so many coins is what an action of that price costs: behind the coins, one action.
                let front = (u64::from(step.number), u64::from(self.world.counted));
                list.waiting.push((step.state, (front, step.tagged != 0)));
            }
        }
        same(row, answered(u8::from(done), 0))
    }

    fn take(&mut self, row: &Row) -> Judged {
        self.strayed = true;
        let Some(mut list) = self.list.take() else {
            return if row.number == 0 && row.status < 2 { Ok(false) } else { Err("done or not".to_string()) };
        };
        let done = !list.waiting.is_empty();
        let later = |one: Labelled| list.waiting.iter().any(|other| earlier(other.1, one));
        let firsts: Vec<u32> = list.waiting.iter().filter(|entry| !later(entry.1)).map(|entry| entry.0).collect();
        if firsts.len() < 2 || firsts.len() == list.waiting.len() {
            list.waiting.retain(|entry| Some(&entry.0) != firsts.first());
            self.list = (firsts.len() < 2).then_some(list);
        }
        same(row, answered(u8::from(done), 0))
    }
}
