//! Before anything is timed: the library and plain Rust answer alike and leave the same memory, on inputs drawn at random.

mod draw;

use crate::calls::{Calls, LIBRARY, PLAIN};
use crate::cases::outcome_of;
use crate::inputs::Draw;
use crate::records::*;

const ROUNDS: u64 = 100_000;

/// Every answer that a call can give, to be seen in the rounds.
const ANSWERS: [(&str, &[u64]); 12] = [
    ("execute", &[0, 1, 2, 3, 4, 5, 6, 7, 13]),
    ("run", &[0, 2, 10, 13]),
    ("look up", &[0, 2, 8, 13, 14]),
    ("insert", &[0, 8, 9, 13]),
    ("read slot", &[0, 8, 13, 14]),
    ("judge", &[0, 2, 8, 10, 11, 12, 13]),
    ("list", &[0]),
    ("tail", &[0]),
    ("decode", &[0, 1]),
    ("build", &[0, 8]),
    ("read operand", &[0, 6, 8]),
    ("write operand", &[0, 8]),
];

pub fn check() {
    let mut seen = [[0u64; 15]; ANSWERS.len()];
    for round in 0..ROUNDS {
        let input = draw::input(&mut Draw::new(round + 1));
        let (library, plain) = (input.outcomes(&LIBRARY), input.outcomes(&PLAIN));
        for k in 0..ANSWERS.len() {
            assert!(library[k] == plain[k], "{}: the library and plain Rust differ in round {}", ANSWERS[k].0, round);
            seen[k][library[k][0] as usize] += 1;
        }
    }
    for ((call, answers), seen) in ANSWERS.iter().zip(seen) {
        let given = |answer: &u64| seen[*answer as usize] > 0;
        assert!(answers.iter().all(given), "{}: not every answer was seen: {:?}", call, seen);
    }
    println!("The library and plain Rust agree on {} random inputs of each call, every answer among them.\n", ROUNDS);
}

/// What all calls of a round are given.
struct Input {
    table: Vec<u64>,
    state: State,
    list: Vec<u64>,
    regime: u64,
    asid: u16,
    address: u64,
    slot: usize,
    entry: Entry,
    target: Target,
    operation: Operation,
    told: Told,
    fields: Fields,
    code: Vec<u8>,
    room: usize,
}

impl Input {
    fn outcomes(&self, calls: &Calls) -> [Vec<u64>; ANSWERS.len()] {
        [
            self.execute(calls),
            self.run(calls),
            self.look_up(calls),
            self.insert(calls),
            self.read_slot(calls),
            self.judge(calls),
            self.list(calls),
            self.tail(calls),
            self.decode(calls),
            self.build(calls),
            self.read_operand(calls),
            self.write_operand(calls),
        ]
    }

    /// The first step of the list, or a word that is none.
    fn step(&self) -> [u64; 3] {
        match self.list.get(..3) {
            Some(step) => [step[0], step[1], step[2]],
            None => [0; 3],
        }
    }

    fn execute(&self, calls: &Calls) -> Vec<u64> {
        let mut table = self.table.clone();
        let mut out = Executed::default();
        let [word, xt, xt2] = self.step();
        // SAFETY: pointers and counts are those of live slices and records; so in each call below.
        let answer = unsafe { (calls.execute)(table.as_mut_ptr(), table.len(), &self.state, word, xt, xt2, &mut out) };
        outcome_of(answer, &out, &table)
    }

    fn run(&self, calls: &Calls) -> Vec<u64> {
        let mut table = self.table.clone();
        let mut out = Ran::default();
        let list = &self.list;
        let answer = unsafe { (calls.run)(table.as_mut_ptr(), table.len(), &self.state, list.as_ptr(), list.len(), &mut out) };
        outcome_of(answer, &out, &table)
    }

    fn look_up(&self, calls: &Calls) -> Vec<u64> {
        let mut out = Found::default();
        let table = &self.table;
        let answer = unsafe { (calls.look_up)(table.as_ptr(), table.len(), &self.state, self.regime, self.asid, self.address, &mut out) };
        outcome_of(answer, &out, table)
    }

    fn insert(&self, calls: &Calls) -> Vec<u64> {
        let mut table = self.table.clone();
        let mut out = Inserted::default();
        let answer = unsafe { (calls.insert)(table.as_mut_ptr(), table.len(), &self.entry, self.address, &mut out) };
        outcome_of(answer, &out, &table)
    }

    fn read_slot(&self, calls: &Calls) -> Vec<u64> {
        let mut out = Slot::default();
        let answer = unsafe { (calls.read_slot)(self.table.as_ptr(), self.table.len(), self.slot, &mut out) };
        outcome_of(answer, &out, &self.table)
    }

    fn judge(&self, calls: &Calls) -> Vec<u64> {
        let mut out = Judged::default();
        let answer = unsafe { (calls.judge)(&self.state, &self.target, self.list.as_ptr(), self.list.len(), &mut out) };
        outcome_of(answer, &out, &self.list)
    }

    fn list(&self, calls: &Calls) -> Vec<u64> {
        let mut text = [0u64; 128];
        let mut out = Listed::default();
        let code = &self.code;
        let answer = unsafe { (calls.list)(code.as_ptr(), code.len(), self.address, text.as_mut_ptr().cast(), self.room, &mut out) };
        outcome_of(answer, &out, &text)
    }

    fn tail(&self, calls: &Calls) -> Vec<u64> {
        let mut text = [0u64; 4];
        let mut out = Tailed::default();
        let answer = unsafe { (calls.tail)(self.slot, text.as_mut_ptr().cast(), self.room % 32, &mut out) };
        outcome_of(answer, &out, &text)
    }

    fn decode(&self, calls: &Calls) -> Vec<u64> {
        let mut out = Operation::default();
        let answer = unsafe { (calls.decode)(self.step()[0], &mut out) };
        outcome_of(answer, &out, &[])
    }

    fn build(&self, calls: &Calls) -> Vec<u64> {
        let mut out = Built::default();
        let answer = unsafe { (calls.build)(&self.operation, &mut out) };
        outcome_of(answer, &out, &[])
    }

    fn read_operand(&self, calls: &Calls) -> Vec<u64> {
        let mut out = Fields::default();
        let answer = unsafe { (calls.read_operand)(&self.told, self.step()[1], self.step()[2], &mut out) };
        outcome_of(answer, &out, &[])
    }

    fn write_operand(&self, calls: &Calls) -> Vec<u64> {
        let mut out = Words::default();
        let answer = unsafe { (calls.write_operand)(&self.told, &self.fields, &mut out) };
        outcome_of(answer, &out, &[])
    }
}
