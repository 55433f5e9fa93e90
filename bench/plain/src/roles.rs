//! Who may do what in a catalogue (A10).
use crate::{Refusal, Sheet};

#[derive(Clone, Copy, Debug, PartialEq, Eq)]
pub enum Role {
    Trainee,
    Tutor,
    Examiner,
}

/// Who calls. An added run takes the trainee number.
#[derive(Clone, Copy, Debug, PartialEq, Eq)]
pub struct Caller {
    pub role: Role,
    pub trainee: u32,
}

#[derive(Clone, Copy)]
pub(crate) enum Operation {
    Add,
    Look,
    List,
    Read,
    Replace,
    Mark,
}

/// By role and operation.
const GRID: [[bool; 6]; 3] =
    [[true, true, true, true, false, false], [true, true, true, true, true, false], [true, true, true, true, true, true]];

impl Caller {
    pub(crate) fn check(&self, operation: Operation) -> Result<(), Refusal> {
        match GRID[self.role as usize][operation as usize] {
            true => Ok(()),
            false => Err(Refusal::Role),
        }
    }

    /// A sheet as the caller sees it: a trainee does not see another's number and mark.
    pub(crate) fn sees(&self, sheet: Sheet) -> Sheet {
        if self.role == Role::Trainee && sheet.trainee != self.trainee {
            return Sheet { trainee: 0, mark: Sheet::UNMARKED, ..sheet };
        }
        sheet
    }
}
