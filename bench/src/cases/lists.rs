//! The cases of judging a list of steps, and of listing machine code.

use super::{outcome_of, Case};
use crate::calls::Calls;
use crate::inputs::*;
use crate::records::*;
use crate::time::keep;

/// TLBI RVAAE1OS, X0 and TLBI RVAAE1OS, X2.
const RVAAE1OS: u64 = 0xD508_8560;
const RVAAE1OS_X2: u64 = 0xD508_8562;
/// 2^33 bytes of 4K pages: the most that one step drops of them.
const STEP_OPERAND: u64 = 1 << 46 | 3 << 44 | 31 << 39;
const STEP_EXPONENT: u64 = 33;

/// A list of steps, one range behind the other from address 0, held against a target from address 0 on eight processors.
struct Judge {
    what: String,
    state: State,
    target: Target,
    list: Vec<u64>,
    answer: u32,
}

impl Judge {
    fn new(steps: u64, exponent: u64) -> Judge {
        let list = (0..steps).flat_map(|k| [RVAAE1OS, STEP_OPERAND + (k << (STEP_EXPONENT - 12)), 0]).collect();
        let target = Target { company: guest(7), granule: 1, processors: 255, first: 0, last: (1 << exponent) - 1, ..Target::default() };
        let answer = if target.last < steps << STEP_EXPONENT { 0 } else { 12 };
        let what = format!("{} step{}, 2^{} bytes", steps, if steps == 1 { "" } else { "s" }, exponent);
        Judge { what, state: state(), target, list, answer }
    }

    /// Leaves only: no table entry, whose spans are large, is a gap before them.
    fn leaves(mut self) -> Judge {
        self.target.leaves = 1;
        self.what += ", leaves";
        self
    }

    /// Two words in turn, so that no step has the word of the step before it.
    fn in_turn(mut self) -> Judge {
        self.list.chunks_exact_mut(6).for_each(|steps| steps[3] = RVAAE1OS_X2);
        self.what += ", two words in turn";
        self
    }

    /// The steps the other way round, so that each span is dropped by the last step that is tried.
    fn backwards(mut self) -> Judge {
        self.list = self.list.chunks_exact(3).rev().flatten().copied().collect();
        self.what += ", last step first";
        self
    }
}

impl Case for Judge {
    fn call(&self) -> &'static str {
        "judge"
    }

    fn given(&self) -> String {
        format!("{}, {}", self.what, if self.answer == 0 { "accepted" } else { "a gap" })
    }

    fn run(&mut self, calls: &Calls, times: u64) {
        let mut out = Judged::default();
        for _ in 0..times {
            let list = &self.list;
            unsafe { (calls.judge)(&self.state, &self.target, list.as_ptr(), list.len(), &mut out) };
        }
        keep(&mut out);
    }

    fn outcome(&mut self, calls: &Calls) -> Vec<u64> {
        let mut out = Judged::default();
        let answer = unsafe { (calls.judge)(&self.state, &self.target, self.list.as_ptr(), self.list.len(), &mut out) };
        assert_eq!(answer, self.answer);
        outcome_of(answer, &out, &[])
    }
}

/// Machine code of so many words, of which one in so many is an operation.
struct List {
    code: Vec<u64>,
    one_in: u64,
    at: u64,
    text: Vec<u64>,
}

impl List {
    fn new(words: usize, one_in: u64, at: u64) -> List {
        let mut draw = Draw::new(one_in);
        let mut word = || if draw.one_in(one_in) { operation_word(&mut draw) } else { other_word(&mut draw) };
        let code = (0..words / 2).map(|_| word() | word() << 32).collect();
        List { code, one_in, at, text: vec![0; 8 * words] }
    }

    fn list(&mut self, calls: &Calls, out: &mut Listed) -> u32 {
        let (code, text) = (&self.code, &mut self.text);
        unsafe { (calls.list)(code.as_ptr().cast(), 8 * code.len(), self.at, text.as_mut_ptr().cast(), 8 * text.len(), out) }
    }
}

/// One of the operations, with an even register.
fn operation_word(draw: &mut Draw) -> u64 {
    let crm = [2, 5, 6][draw.below(3) as usize];
    let op2 = [1, 3, 5, 7][draw.below(4) as usize];
    let fixed = [0xD508_0000, 0xD548_0000][draw.below(2) as usize];
    fixed | (8 + draw.below(2)) << 12 | crm << 8 | op2 << 5 | 2 * draw.below(16)
}

/// Any word but those of system instructions.
fn other_word(draw: &mut Draw) -> u64 {
    draw.word() & 0x7FFF_FFFF
}

impl Case for List {
    fn call(&self) -> &'static str {
        "list"
    }

    fn given(&self) -> String {
        let operations = match self.one_in {
            1 if self.at > 0 => "all operations, high offsets".to_string(),
            1 => "all operations".to_string(),
            many => format!("one in {} an operation", many),
        };
        format!("{} words, {}", 2 * self.code.len(), operations)
    }

    fn run(&mut self, calls: &Calls, times: u64) {
        let mut out = Listed::default();
        for _ in 0..times {
            self.list(calls, &mut out);
        }
        keep(&mut out);
    }

    fn outcome(&mut self, calls: &Calls) -> Vec<u64> {
        let mut out = Listed::default();
        self.text.fill(0);
        let answer = self.list(calls, &mut out);
        assert!(answer == 0 && out.used == 8 * self.code.len() as u64 && out.written > 0);
        outcome_of(answer, &out, &self.text)
    }

    fn lent(&self) -> &[u64] {
        &self.code
    }
}

struct Tail {
    left: usize,
    text: Vec<u64>,
}

impl Case for Tail {
    fn call(&self) -> &'static str {
        "tail"
    }

    fn given(&self) -> String {
        format!("{} bytes", self.left)
    }

    fn run(&mut self, calls: &Calls, times: u64) {
        let mut out = Tailed::default();
        for _ in 0..times {
            unsafe { (calls.tail)(self.left, self.text.as_mut_ptr().cast(), 8 * self.text.len(), &mut out) };
        }
        keep(&mut out);
    }

    fn outcome(&mut self, calls: &Calls) -> Vec<u64> {
        let mut out = Tailed::default();
        let answer = unsafe { (calls.tail)(self.left, self.text.as_mut_ptr().cast(), 8 * self.text.len(), &mut out) };
        outcome_of(answer, &out, &self.text)
    }
}

pub fn all() -> Vec<Box<dyn Case>> {
    let mut cases: Vec<Box<dyn Case>> = Vec::new();
    for steps in [1, 4, 16] {
        for exponent in [12, 21, 33, 37, 55] {
            cases.push(Box::new(Judge::new(steps, exponent)));
        }
    }
    cases.push(Box::new(Judge::new(16, 55).leaves()));
    cases.push(Box::new(Judge::new(16, 37).backwards()));
    for steps in [4, 16] {
        cases.push(Box::new(Judge::new(steps, 55).in_turn()));
    }
    for one_in in [1024, 16, 1] {
        cases.push(Box::new(List::new(4096, one_in, 0)));
    }
    cases.push(Box::new(List::new(4096, 1, u64::MAX - 65535)));
    for left in [3, usize::MAX] {
        cases.push(Box::new(Tail { left, text: vec![0; 4] }));
    }
    cases
}
