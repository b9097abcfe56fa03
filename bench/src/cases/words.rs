//! The cases of the calls on words: decode and build, and reading and writing an operand.

use super::{words_of, Case};
use crate::calls::Calls;
use crate::inputs::Draw;
use crate::records::*;
use crate::time::keep;

/// How many different words are taken in turn.
const WORDS: usize = 120;

/// The samples where different words are taken: each goes its own way through a call, and the branch predictors find the best account of
/// that by chance, in few samples.
const SAMPLES: usize = 15;

/// Every name with every shareability, NXS and kind, and some register each.
fn operations() -> Vec<Operation> {
    let kinds = (0..WORDS as u64).map(|k| (k / 12, k / 4 % 3, k / 2 % 2, k % 2));
    kinds.map(|(name, share, nxs, tlbip)| Operation { name, share, nxs, tlbip, rt: (name + share) * 2 % 32 }).collect()
}

/// Operations and other words in random order.
fn shuffled<T>(mut things: Vec<T>) -> Vec<T> {
    let mut draw = Draw::new(1);
    for k in (1..things.len()).rev() {
        things.swap(k, draw.below(k as u64 + 1) as usize);
    }
    things
}

struct Decode {
    what: &'static str,
    words: Vec<u64>,
}

impl Decode {
    fn operations() -> Decode {
        let words = shuffled(operations()).iter().map(word_of).collect();
        Decode { what: "operations", words }
    }

    fn others() -> Decode {
        let mut draw = Draw::new(2);
        Decode { what: "other words", words: (0..WORDS).map(|_| draw.word() >> 32).collect() }
    }

    /// System instructions next to the operations: only op1, CRm and op2 tell them apart.
    fn near() -> Decode {
        let mut draw = Draw::new(3);
        Decode { what: "words near them", words: (0..WORDS).map(|_| 0xD508_8000 | draw.below(1 << 19) & !0xF000).collect() }
    }
}

fn word_of(op: &Operation) -> u64 {
    let mut built = Built::default();
    let answer = unsafe { (crate::calls::LIBRARY.build)(op, &mut built) };
    assert_eq!(answer, 0);
    built.word
}

impl Case for Decode {
    fn call(&self) -> &'static str {
        "decode"
    }

    fn given(&self) -> String {
        self.what.to_string()
    }

    fn run(&mut self, calls: &Calls, times: u64) {
        let mut out = Operation::default();
        for _ in 0..times {
            for word in &self.words {
                unsafe { (calls.decode)(*word, &mut out) };
            }
        }
        keep(&mut out);
    }

    fn outcome(&mut self, calls: &Calls) -> Vec<u64> {
        let mut all = Vec::new();
        for word in &self.words {
            let mut out = Operation::default();
            all.push(u64::from(unsafe { (calls.decode)(*word, &mut out) }));
            all.extend_from_slice(words_of(&out));
        }
        all
    }

    fn calls_each(&self) -> u64 {
        WORDS as u64
    }

    fn samples(&self) -> usize {
        SAMPLES
    }
}

struct Build {
    operations: Vec<Operation>,
}

impl Case for Build {
    fn call(&self) -> &'static str {
        "build"
    }

    fn given(&self) -> String {
        "operations".to_string()
    }

    fn run(&mut self, calls: &Calls, times: u64) {
        let mut out = Built::default();
        for _ in 0..times {
            for operation in &self.operations {
                unsafe { (calls.build)(operation, &mut out) };
            }
        }
        keep(&mut out);
    }

    fn outcome(&mut self, calls: &Calls) -> Vec<u64> {
        let mut all = Vec::new();
        for operation in &self.operations {
            let mut out = Built::default();
            all.push(u64::from(unsafe { (calls.build)(operation, &mut out) }));
            all.push(out.word);
        }
        all
    }

    fn calls_each(&self) -> u64 {
        WORDS as u64
    }

    fn samples(&self) -> usize {
        SAMPLES
    }
}

/// A TLBI of two ranges with an ASID, and a TLBIP of stage 2.
fn told(tlbip: u64) -> Told {
    Told { tlbip, form: 3 * tlbip, lpa2: 1, unit64k: 0 }
}

/// ASID 5, 16K, scale 1, num 3, TTL 3, and a base.
const XT: u64 = 5 << 48 | 2 << 46 | 1 << 44 | 3 << 39 | 3 << 37 | 0x12_3456;
const XT2: u64 = 0x345_6700;

struct ReadOperand {
    tlbip: u64,
}

impl Case for ReadOperand {
    fn call(&self) -> &'static str {
        "read operand"
    }

    fn given(&self) -> String {
        if self.tlbip == 1 { "TLBIP" } else { "TLBI" }.to_string()
    }

    fn run(&mut self, calls: &Calls, times: u64) {
        let told = told(self.tlbip);
        let mut out = Fields::default();
        for _ in 0..times {
            unsafe { (calls.read_operand)(&told, XT, XT2, &mut out) };
        }
        keep(&mut out);
    }

    fn outcome(&mut self, calls: &Calls) -> Vec<u64> {
        let mut out = Fields::default();
        let answer = unsafe { (calls.read_operand)(&told(self.tlbip), XT, XT2, &mut out) };
        assert_eq!(answer, 0);
        super::outcome_of(answer, &out, &[])
    }
}

struct WriteOperand {
    tlbip: u64,
    fields: Fields,
}

impl WriteOperand {
    fn new(tlbip: u64) -> WriteOperand {
        let mut fields = Fields::default();
        let answer = unsafe { (crate::calls::LIBRARY.read_operand)(&told(tlbip), XT, XT2, &mut fields) };
        assert_eq!(answer, 0);
        WriteOperand { tlbip, fields }
    }
}

impl Case for WriteOperand {
    fn call(&self) -> &'static str {
        "write operand"
    }

    fn given(&self) -> String {
        if self.tlbip == 1 { "TLBIP" } else { "TLBI" }.to_string()
    }

    fn run(&mut self, calls: &Calls, times: u64) {
        let told = told(self.tlbip);
        let mut out = Words::default();
        for _ in 0..times {
            unsafe { (calls.write_operand)(&told, &self.fields, &mut out) };
        }
        keep(&mut out);
    }

    fn outcome(&mut self, calls: &Calls) -> Vec<u64> {
        let mut out = Words::default();
        let answer = unsafe { (calls.write_operand)(&told(self.tlbip), &self.fields, &mut out) };
        assert_eq!(answer, 0);
        super::outcome_of(answer, &out, &[])
    }
}

pub fn all() -> Vec<Box<dyn Case>> {
    vec![
        Box::new(Decode::operations()),
        Box::new(Decode::near()),
        Box::new(Decode::others()),
        Box::new(Build { operations: shuffled(operations()) }),
        Box::new(ReadOperand { tlbip: 0 }),
        Box::new(ReadOperand { tlbip: 1 }),
        Box::new(WriteOperand::new(0)),
        Box::new(WriteOperand::new(1)),
    ]
}
