//! The proved library, as `crates/harness` exports it. Nothing checks these declarations against the Rattle source.

/// Which parts a marking is made with, and how long its table and its list are.
#[repr(C)]
#[derive(Clone, Copy, Debug)]
pub struct Setup {
    /// 0: coins, else coins then actions.
    pub cost: u8,
    /// 0: blind; 1: table; 2: table, strided; else the maximum of the first table and the second, strided.
    pub heuristic: u8,
    /// 0: heap, else flat.
    pub list: u8,
    /// 0: the first table is not checked.
    pub check: u8,
    pub stride: u32,
    pub records: u32,
    pub room: u32,
}

/// One call and its numbers.
#[repr(C)]
#[derive(Clone, Copy, Debug)]
pub struct Step {
    pub call: u8,
    pub tagged: u8,
    pub action: u16,
    pub state: u32,
    pub number: u32,
}

/// `start` with a state, an action and, as its number, a limit.
pub const START: u8 = 0;
/// `advance` with, as its number, a budget.
pub const ADVANCE: u8 = 1;
pub const LOOK: u8 = 2;
/// `mark`, on a marking of its own, with a state, an action and a limit.
pub const MARK: u8 = 3;
/// Puts an entry on the list behind the marking's back: a state, as its front what an action of so many coins is charged
/// (under coins then actions that is one action, too), and a tag.
pub const PUT: u8 = 4;
/// Takes an entry from the list behind the marking's back.
pub const TAKE: u8 = 5;

/// What a call answered.
#[repr(C)]
#[derive(Clone, Copy, Debug, Default, PartialEq, Eq)]
pub struct Row {
    /// The number of a refusal, or 0. In the row of a refusal all but this, the place and, for 11, the action are 0.
    pub number: u8,
    /// Fresh, open, best, other, stuck, spent: 0 to 5. For `PUT` and `TAKE` whether it was done.
    pub status: u8,
    /// The second place of refusal 11.
    pub action: u16,
    pub turns: u32,
    /// The place of a refusal.
    pub place: u64,
}

unsafe extern "C" {
    fn harness_play(
        setup: *const Setup,
        sheet: *const u8,
        sheet_length: usize,
        first: *const u32,
        first_length: usize,
        second: *const u32,
        second_length: usize,
        steps: *const Step,
        steps_length: usize,
        rows: *mut Row,
        rows_length: usize,
        top: *mut Row,
    ) -> bool;
}

/// Reads the sheet, makes the task and the parts, and makes the calls in a row on one fresh marking, a row for each.
/// The top row is the refusal of the sheet, or else what the check of the first table says (number 10 where it has not
/// an entry for each state; blank where no check is asked for); a table of the wrong length leaves the rows as they are where the heuristic needs it.
/// `None` where there was no memory.
pub fn play(setup: &Setup, sheet: &[u8], first: &[u32], second: &[u32], steps: &[Step], rows: &mut [Row]) -> Option<Row> {
    let mut top = Row::default();
    // SAFETY: every pointer comes with its length, and the library is proved to stay within them.
    let done = unsafe {
        harness_play(
            setup,
            sheet.as_ptr(),
            sheet.len(),
            first.as_ptr(),
            first.len(),
            second.as_ptr(),
            second.len(),
            steps.as_ptr(),
            steps.len(),
            rows.as_mut_ptr(),
            rows.len(),
            &mut top,
        )
    };
    done.then_some(top)
}
