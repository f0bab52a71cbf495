//! The faults of the documents, each with its number.

/// A fault; its number is that of the documents' tables.
#[derive(Clone, Copy, Debug, PartialEq, Eq)]
#[repr(u8)]
pub enum Fault {
    /// The text is over 65,536 bytes.
    Long = 1,
    /// A wrong key, order of keys, kind, other word or spacing; an unused place that is not 0.
    Form = 2,
    /// A number outside its range.
    Range = 3,
    /// Not the index due; node 0 not `start`, or `start` elsewhere.
    Index = 4,
    /// A reference to an undeclared item, or a target outside 1 to n-1.
    Reference = 5,
    /// An argument count that differs from the callee's.
    Arguments = 6,
    /// In closed form an absent target, a wrong `-`, or a top parameter that is not dropped.
    Closed = 7,
    /// A buffer shorter than the text.
    Buffer = 8,
    /// A table of the other form.
    OtherForm = 9,
    /// No such task.
    NoTask = 10,
    /// Fewer than 8 log bytes left.
    Log = 11,
    /// The task is lost.
    Lost = 12,
    /// The task is blocked.
    Blocked = 13,
    /// One dropped node more than allowed.
    Dropped = 14,
    /// The value list is spent.
    Spent = 15,
    /// A toss below 0 or not below the arc's count.
    Toss = 16,
    /// A depth over the largest.
    Depth = 17,
    /// One step more than the bound is needed.
    Bound = 18,
    /// A misspelt number, operand or list.
    Misspelt = 19,
    /// The text ends early or carries on after its last line.
    End = 20,
}

impl Fault {
    /// The largest number.
    pub const LAST: Fault = Fault::End;

    pub const fn number(self) -> u8 {
        self as u8
    }

    /// The refusal with a line, which is 0 where none is meant.
    pub const fn at(self, line: u32) -> Refusal {
        Refusal {
            number: self.number(),
            line,
        }
    }
}

/// Why something was refused: the number of the documents, and the line from 1 or 0.
#[derive(Clone, Copy, Debug, PartialEq, Eq)]
pub struct Refusal {
    pub number: u8,
    pub line: u32,
}

impl Refusal {
    pub fn is(self, fault: Fault) -> bool {
        self.number == fault.number()
    }
}
