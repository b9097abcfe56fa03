//! Why a call did nothing.
use crate::entry::Entry;
use std::fmt;

/// Why an entry was not inserted.
#[derive(Clone, Copy, Debug, PartialEq, Eq)]
pub enum InsertError {
    /// The table's words are no multiple of three, or more than 6,144.
    BadShape,
    /// The entry breaks a rule.
    Illegal,
    /// No slot is free.
    Full,
}

/// Why an address was not found.
#[derive(Clone, Copy, Debug, PartialEq, Eq)]
pub enum LookUpError {
    /// The table's words are no multiple of three, or more than 6,144.
    BadShape,
    /// The processor state cannot be.
    BadState,
    /// No slot matches.
    NotFound {
        /// How many slots were examined: all.
        examined: usize,
    },
}

/// Why an instruction was not carried out.
#[derive(Clone, Copy, Debug, PartialEq, Eq)]
pub enum ExecuteError {
    /// The table's words are no multiple of three, or more than 6,144.
    BadShape,
    /// The processor state cannot be.
    BadState,
    /// The word is none of the operations.
    Unknown,
    /// The instruction is UNDEFINED in this state.
    Undefined,
    /// It traps to EL2, with the exception class: 0x18 for TLBI, 0x14 for TLBIP.
    Trapped(u8),
    /// It ends without effect.
    NoEffect,
    /// The operand's TG is 00.
    NoGranule,
    /// The range is UNPREDICTABLE: its base is not aligned as its TTL asks.
    Unpredictable,
}

/// Why a list was not run.
#[derive(Clone, Copy, Debug, PartialEq, Eq)]
pub enum RunError {
    /// The table has a number of words that none can have, or the list more than 16 steps.
    BadShape,
    /// The processor state cannot be.
    BadState,
    /// A step would not be done.
    Refused {
        /// The first such step, counted from 0.
        step: usize,
    },
}

/// Why a list was not accepted.
#[derive(Clone, Copy, Debug, PartialEq, Eq)]
pub enum JudgeError {
    /// The list has more than 16 steps.
    BadShape,
    /// The processor state cannot be.
    BadState,
    /// The target breaks a rule.
    BadTarget,
    /// A step would not be done.
    Refused {
        /// The first such step, counted from 0.
        step: usize,
    },
    /// A step touches somebody else than the target's company.
    Outside {
        /// The first such step, counted from 0.
        step: usize,
    },
    /// An entry of the target that the list would leave.
    Gap(Entry),
}

const BAD_SHAPE: &str = "the table or the list has a number of words that none can have";
const BAD_STATE: &str = "the processor state cannot be";

impl fmt::Display for InsertError {
    fn fmt(&self, f: &mut fmt::Formatter<'_>) -> fmt::Result {
        f.write_str(match self {
            InsertError::BadShape => BAD_SHAPE,
            InsertError::Illegal => "the entry breaks a rule",
            InsertError::Full => "no slot is free",
        })
    }
}

impl fmt::Display for LookUpError {
    fn fmt(&self, f: &mut fmt::Formatter<'_>) -> fmt::Result {
        match self {
            LookUpError::BadShape => f.write_str(BAD_SHAPE),
            LookUpError::BadState => f.write_str(BAD_STATE),
            LookUpError::NotFound { examined } => write!(f, "not found in {} slots", examined),
        }
    }
}

impl fmt::Display for ExecuteError {
    fn fmt(&self, f: &mut fmt::Formatter<'_>) -> fmt::Result {
        match self {
            ExecuteError::BadShape => f.write_str(BAD_SHAPE),
            ExecuteError::BadState => f.write_str(BAD_STATE),
            ExecuteError::Unknown => f.write_str("the word is none of the operations"),
            ExecuteError::Undefined => f.write_str("it is UNDEFINED"),
            ExecuteError::Trapped(class) => write!(f, "it is trapped to EL2, exception class {:#x}", class),
            ExecuteError::NoEffect => f.write_str("it ends without effect"),
            ExecuteError::NoGranule => f.write_str("its operand names no granule: TG is 00"),
            ExecuteError::Unpredictable => f.write_str("its range is UNPREDICTABLE: the base is not aligned as its TTL asks"),
        }
    }
}

impl fmt::Display for RunError {
    fn fmt(&self, f: &mut fmt::Formatter<'_>) -> fmt::Result {
        match self {
            RunError::BadShape => f.write_str(BAD_SHAPE),
            RunError::BadState => f.write_str(BAD_STATE),
            RunError::Refused { step } => write!(f, "step {} would not be done", step),
        }
    }
}

impl fmt::Display for JudgeError {
    fn fmt(&self, f: &mut fmt::Formatter<'_>) -> fmt::Result {
        match self {
            JudgeError::BadShape => f.write_str(BAD_SHAPE),
            JudgeError::BadState => f.write_str(BAD_STATE),
            JudgeError::BadTarget => f.write_str("the target breaks a rule"),
            JudgeError::Refused { step } => write!(f, "step {} would not be done", step),
            JudgeError::Outside { step } => write!(f, "step {} touches somebody else", step),
            JudgeError::Gap(entry) => write!(f, "gap: {} would survive", entry),
        }
    }
}

impl std::error::Error for InsertError {}
impl std::error::Error for LookUpError {}
impl std::error::Error for ExecuteError {}
impl std::error::Error for RunError {}
impl std::error::Error for JudgeError {}
