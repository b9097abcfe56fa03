//! Tables of entries, lists of steps, and the calls on them.
use crate::entry::{Entry, Regime, Target};
use crate::error::{ExecuteError, InsertError, JudgeError, LookUpError, RunError};
use crate::raw;
use crate::state::State;

/// A lent table: slots of three words, 2,048 slots at most. All zeros is an empty table, and so is anything else that [`Table::insert`] could not have
/// written.
#[derive(Debug)]
pub struct Table<'a> {
    words: &'a mut [u64],
}

/// What a look up found.
#[derive(Clone, Copy, Debug, PartialEq, Eq)]
pub struct Found {
    /// The slot, counted from 0.
    pub slot: usize,
    /// The output word that was inserted with the entry.
    pub output: u64,
    /// How many slots were examined: the slot plus one.
    pub examined: usize,
}

/// A step of a list: an instruction word and its registers.
#[derive(Clone, Copy, Debug, Default, PartialEq, Eq, Hash)]
pub struct Step {
    /// The instruction word; 2^32 and more is none of the operations.
    pub word: u64,
    /// The register Xt.
    pub xt: u64,
    /// The register behind Xt, which is read for TLBIP only.
    pub xt2: u64,
}

/// The words of a list, step by step, as the C interface takes them.
pub fn list_words(steps: &[Step]) -> Vec<u64> {
    steps.iter().flat_map(|step| [step.word, step.xt, step.xt2]).collect()
}

impl<'a> Table<'a> {
    /// A table of these words, three a slot. More than 6,144 of them, or a number that is no multiple of three, is answered `BadShape` by every call.
    pub fn new(words: &'a mut [u64]) -> Self {
        Table { words }
    }

    /// The words of the table.
    pub fn words(&self) -> &[u64] {
        self.words
    }

    /// How many slots there are.
    pub fn slots(&self) -> usize {
        self.words.len() / 3
    }

    /// Puts an entry and an output word of the caller's into the lowest free slot, and tells the slot.
    pub fn insert(&mut self, entry: &Entry, output: u64) -> Result<usize, InsertError> {
        match raw::call::insert(self.words, entry.into(), output) {
            (0, inserted) => Ok(inserted.slot as usize),
            (13, _) => Err(InsertError::BadShape),
            (9, _) => Err(InsertError::Full),
            _ => Err(InsertError::Illegal),
        }
    }

    /// The entry and the output word in a slot, if it is a slot and holds one.
    pub fn read(&self, slot: usize) -> Option<(Entry, u64)> {
        match raw::call::read_slot(self.words, slot) {
            (0, read) => Some((Entry::from_raw(&read.entry)?, read.output)),
            _ => None,
        }
    }

    /// Finds the lowest slot with a leaf of stage 1 that translates the address for the state's own processor, in this regime and for this ASID.
    pub fn look_up(&self, state: &State, regime: Regime, asid: u16, address: u64) -> Result<Found, LookUpError> {
        match raw::call::look_up(self.words, state.into(), regime.number(), asid, address) {
            (0, found) => Ok(Found { slot: found.slot as usize, output: found.output, examined: found.examined as usize }),
            (13, _) => Err(LookUpError::BadShape),
            (2, _) => Err(LookUpError::BadState),
            (_, found) => Err(LookUpError::NotFound { examined: found.examined as usize }),
        }
    }

    /// Carries out one instruction: drops the entries that Arm's pages require to go, and no other. Tells how many went.
    pub fn execute(&mut self, state: &State, step: Step) -> Result<usize, ExecuteError> {
        match raw::call::execute(self.words, state.into(), step.word, step.xt, step.xt2) {
            (0, executed) => Ok(executed.dropped as usize),
            (13, _) => Err(ExecuteError::BadShape),
            (2, _) => Err(ExecuteError::BadState),
            (1, _) => Err(ExecuteError::Unknown),
            (4, executed) => Err(ExecuteError::Trapped(executed.trap as u8)),
            (5, _) => Err(ExecuteError::NoEffect),
            (6, _) => Err(ExecuteError::NoGranule),
            (7, _) => Err(ExecuteError::Unpredictable),
            _ => Err(ExecuteError::Undefined),
        }
    }

    /// Carries out every step in order, or nothing. Tells how many entries went by all of them together.
    pub fn run(&mut self, state: &State, steps: &[Step]) -> Result<usize, RunError> {
        match raw::call::run(self.words, state.into(), &list_words(steps)) {
            (0, ran) => Ok(ran.dropped as usize),
            (13, _) => Err(RunError::BadShape),
            (2, _) => Err(RunError::BadState),
            (_, ran) => Err(RunError::Refused { step: ran.step as usize }),
        }
    }
}

/// Holds a list against a target: accepted exactly if, from any table, it leaves no entry of the target and every entry of another company.
pub fn judge(state: &State, target: &Target, steps: &[Step]) -> Result<(), JudgeError> {
    match raw::call::judge(state.into(), target.into(), &list_words(steps)) {
        (0, _) => Ok(()),
        (13, _) => Err(JudgeError::BadShape),
        (2, _) => Err(JudgeError::BadState),
        (10, judged) => Err(JudgeError::Refused { step: judged.step as usize }),
        (11, judged) => Err(JudgeError::Outside { step: judged.step as usize }),
        (12, judged) => Err(Entry::from_raw(&judged.survivor).map_or(JudgeError::BadTarget, JudgeError::Gap)),
        _ => Err(JudgeError::BadTarget),
    }
}
