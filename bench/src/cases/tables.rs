//! The cases of the calls on a table.

use super::{outcome_of, Case};
use crate::calls::Calls;
use crate::inputs::*;
use crate::records::*;
use crate::time::keep;

const SIZES: [usize; 4] = [16, 128, 1024, 2048];

const TWO_DOMAINS: [u8; 8] = [0, 0, 0, 0, 1, 1, 1, 1];
const FOUR_DOMAINS: [u8; 8] = [0, 0, 1, 1, 2, 2, 3, 3];
const EIGHT_DOMAINS: [u8; 8] = [0, 1, 2, 3, 4, 5, 6, 7];
/// Four inner domains in two outer ones again, the processors of a domain apart.
const FOUR_IN_TURN: [u8; 8] = [0, 1, 2, 3, 0, 1, 2, 3];
const TWO_IN_TURN: [u8; 8] = [0, 0, 1, 1, 0, 0, 1, 1];

/// How a table is filled.
#[derive(Clone, Copy, PartialEq, Eq)]
enum Filled {
    /// Entries of the guest that runs the instruction, none in its range.
    OneGuest,
    /// Entries of 64 guests, none in the range.
    ManyGuests,
    /// One slot of sixteen holds an entry of the guest, none in the range.
    MostlyEmpty,
    /// Entries of the guest, every second, on average, in the range.
    HalfDropped,
}

impl Filled {
    fn name(self) -> &'static str {
        match self {
            Filled::OneGuest => "one guest",
            Filled::ManyGuests => "many guests",
            Filled::MostlyEmpty => "mostly empty",
            Filled::HalfDropped => "half dropped",
        }
    }

    fn table(self, slots: usize) -> Vec<u64> {
        let mut draw = Draw::new(slots as u64);
        let mut table = table(slots, |_| {
            let vmid = if self == Filled::ManyGuests { draw.below(64) } else { 7 };
            let inside = self == Filled::HalfDropped && draw.one_in(2);
            let page = if inside { page_in_range(&mut draw) } else { page_elsewhere(&mut draw) };
            entry(&mut draw, vmid, page)
        });
        if self == Filled::MostlyEmpty {
            let mut draw = Draw::new(1);
            table.chunks_exact_mut(3).filter(|_| !draw.one_in(16)).for_each(|slot| slot.fill(0));
        }
        table
    }
}

fn slots_text(table: &[u64]) -> String {
    match table.len() / 3 {
        1 => "1 slot".to_string(),
        slots => format!("{} slots", slots),
    }
}

struct Execute {
    what: &'static str,
    /// What the table is put right from, if the call changes it.
    kept: Option<Vec<u64>>,
    table: Vec<u64>,
    state: State,
    word: u64,
}

impl Execute {
    fn new(filled: Filled, slots: usize) -> Execute {
        let table = filled.table(slots);
        let kept = if filled == Filled::HalfDropped { Some(table.clone()) } else { None };
        Execute { what: filled.name(), kept, table, state: state(), word: RVAAE1IS }
    }

    /// Processors of several domains: an execution has to tell those that it reaches.
    fn in_domains(what: &'static str, inner: [u8; 8], outer: [u8; 8]) -> Execute {
        let mut execute = Execute::new(Filled::ManyGuests, 16);
        execute.what = what;
        execute.state.board.inner = inner;
        execute.state.board.outer = outer;
        execute
    }

    /// A trap: what an execution costs that does not come to the table.
    fn trapped() -> Execute {
        let mut state = state();
        state.hcr.ttlb = 1;
        Execute { what: "trapped", kept: None, table: Filled::OneGuest.table(16), state, word: RVAAE1IS }
    }
}

impl Case for Execute {
    fn call(&self) -> &'static str {
        "execute"
    }

    fn given(&self) -> String {
        format!("{}, {}", self.what, slots_text(&self.table))
    }

    fn run(&mut self, calls: &Calls, times: u64) {
        let mut out = Executed::default();
        for _ in 0..times {
            if let Some(kept) = &self.kept {
                self.table.copy_from_slice(kept);
            }
            let table = &mut self.table;
            // SAFETY: pointers and counts are those of live slices and records; so in each call of the cases.
            unsafe { (calls.execute)(table.as_mut_ptr(), table.len(), &self.state, self.word, TWO_MEBIBYTES, 0, &mut out) };
        }
        keep(&mut out);
    }

    fn outcome(&mut self, calls: &Calls) -> Vec<u64> {
        if let Some(kept) = &self.kept {
            self.table.copy_from_slice(kept);
        }
        let mut out = Executed::default();
        let table = &mut self.table;
        let answer = unsafe { (calls.execute)(table.as_mut_ptr(), table.len(), &self.state, self.word, TWO_MEBIBYTES, 0, &mut out) };
        let wanted = if self.state.hcr.ttlb == 1 { 4 } else { 0 };
        assert!(answer == wanted && (out.dropped > 0) == self.kept.is_some());
        outcome_of(answer, &out, &self.table)
    }

    fn restore(&mut self, times: u64) -> bool {
        let kept = match &self.kept {
            Some(kept) => kept,
            None => return false,
        };
        for _ in 0..times {
            self.table.copy_from_slice(kept);
            keep(&mut self.table[..]);
        }
        true
    }

    fn lent(&self) -> &[u64] {
        &self.table
    }
}

/// Sixteen steps over a shared table.
struct Run {
    table: Vec<u64>,
    list: Vec<u64>,
    state: State,
}

impl Case for Run {
    fn call(&self) -> &'static str {
        "run"
    }

    fn given(&self) -> String {
        format!("{} steps, many guests, {}", self.list.len() / 3, slots_text(&self.table))
    }

    fn run(&mut self, calls: &Calls, times: u64) {
        let mut out = Ran::default();
        for _ in 0..times {
            let (table, list) = (&mut self.table, &self.list);
            unsafe { (calls.run)(table.as_mut_ptr(), table.len(), &self.state, list.as_ptr(), list.len(), &mut out) };
        }
        keep(&mut out);
    }

    fn outcome(&mut self, calls: &Calls) -> Vec<u64> {
        let mut out = Ran::default();
        let (table, list) = (&mut self.table, &self.list);
        let answer = unsafe { (calls.run)(table.as_mut_ptr(), table.len(), &self.state, list.as_ptr(), list.len(), &mut out) };
        assert!(answer == 0 && out.dropped == 0);
        outcome_of(answer, &out, &self.table)
    }

    fn lent(&self) -> &[u64] {
        &self.table
    }
}

struct LookUp {
    what: String,
    table: Vec<u64>,
    state: State,
    asid: u16,
    address: u64,
    answer: u32,
}

impl LookUp {
    /// An address that no slot translates.
    fn missing(filled: Filled, slots: usize) -> LookUp {
        let table = filled.table(slots);
        LookUp { what: format!("{}, not found", filled.name()), table, state: state(), asid: 3, address: RANGE_FIRST + 0x1234, answer: 14 }
    }

    /// The page of the last slot, which no other slot has.
    fn last(filled: Filled, slots: usize) -> LookUp {
        let mut found = LookUp::missing(filled, slots);
        found.what = format!("{}, found last", filled.name());
        let mut page = entry(&mut Draw::new(1), 7, 0);
        page.processor = 0;
        page.asid = 3;
        page.leaf = 1;
        page.level = 3;
        page.base = RANGE_FIRST + 0x1000;
        let last = table(1, |_| page);
        found.table.truncate(3 * (slots - 1));
        found.table.extend_from_slice(&last);
        found.answer = 0;
        found
    }
}

impl Case for LookUp {
    fn call(&self) -> &'static str {
        "look up"
    }

    fn given(&self) -> String {
        format!("{}, {}", self.what, slots_text(&self.table))
    }

    fn run(&mut self, calls: &Calls, times: u64) {
        let mut out = Found::default();
        for _ in 0..times {
            let table = &self.table;
            unsafe { (calls.look_up)(table.as_ptr(), table.len(), &self.state, 0, self.asid, self.address, &mut out) };
        }
        keep(&mut out);
    }

    fn outcome(&mut self, calls: &Calls) -> Vec<u64> {
        let mut out = Found::default();
        let table = &self.table;
        let answer = unsafe { (calls.look_up)(table.as_ptr(), table.len(), &self.state, 0, self.asid, self.address, &mut out) };
        assert!(answer == self.answer && out.examined == (table.len() / 3) as u64);
        outcome_of(answer, &out, &self.table)
    }

    fn lent(&self) -> &[u64] {
        &self.table
    }
}

/// An insert into the last slot: all others are taken.
struct Insert {
    what: &'static str,
    table: Vec<u64>,
    entry: Entry,
    slot: usize,
}

impl Insert {
    fn last(filled: Filled, slots: usize) -> Insert {
        let mut insert = Insert { what: filled.name(), table: filled.table(slots), entry: entry(&mut Draw::new(1), 7, 5), slot: slots - 1 };
        insert.empty();
        insert
    }

    fn empty(&mut self) {
        self.table[3 * self.slot..3 * self.slot + 3].fill(0);
    }
}

impl Case for Insert {
    fn call(&self) -> &'static str {
        "insert"
    }

    fn given(&self) -> String {
        format!("{}, into the last of {}", self.what, slots_text(&self.table))
    }

    fn run(&mut self, calls: &Calls, times: u64) {
        let mut out = Inserted::default();
        for _ in 0..times {
            self.empty();
            let table = &mut self.table;
            unsafe { (calls.insert)(table.as_mut_ptr(), table.len(), &self.entry, 1, &mut out) };
        }
        keep(&mut out);
    }

    fn outcome(&mut self, calls: &Calls) -> Vec<u64> {
        self.empty();
        let mut out = Inserted::default();
        let table = &mut self.table;
        let answer = unsafe { (calls.insert)(table.as_mut_ptr(), table.len(), &self.entry, 1, &mut out) };
        assert!(answer == 0 && out.slot == self.slot as u64);
        outcome_of(answer, &out, &self.table)
    }

    fn restore(&mut self, times: u64) -> bool {
        for _ in 0..times {
            self.empty();
            keep(&mut self.table[..]);
        }
        true
    }

    fn lent(&self) -> &[u64] {
        &self.table
    }
}

struct ReadSlot {
    table: Vec<u64>,
}

impl Case for ReadSlot {
    fn call(&self) -> &'static str {
        "read slot"
    }

    fn given(&self) -> String {
        "an entry".to_string()
    }

    fn run(&mut self, calls: &Calls, times: u64) {
        let mut out = Slot::default();
        for k in 0..times {
            unsafe { (calls.read_slot)(self.table.as_ptr(), self.table.len(), k as usize % 16, &mut out) };
        }
        keep(&mut out);
    }

    fn outcome(&mut self, calls: &Calls) -> Vec<u64> {
        let mut out = Slot::default();
        let answer = unsafe { (calls.read_slot)(self.table.as_ptr(), self.table.len(), 5, &mut out) };
        assert_eq!(answer, 0);
        outcome_of(answer, &out, &self.table)
    }
}

pub fn all() -> Vec<Box<dyn Case>> {
    let mut cases: Vec<Box<dyn Case>> = Vec::new();
    for filled in [Filled::OneGuest, Filled::ManyGuests, Filled::MostlyEmpty, Filled::HalfDropped] {
        for slots in SIZES {
            cases.push(Box::new(Execute::new(filled, slots)));
        }
    }
    cases.push(Box::new(Execute::in_domains("many guests, two inner domains", TWO_DOMAINS, [0; 8])));
    cases.push(Box::new(Execute::in_domains("many guests, two inner and outer domains", TWO_DOMAINS, TWO_DOMAINS)));
    cases.push(Box::new(Execute::in_domains("many guests, four inner and two outer domains", FOUR_DOMAINS, TWO_DOMAINS)));
    cases.push(Box::new(Execute::in_domains("many guests, four inner and two outer domains in turn", FOUR_IN_TURN, TWO_IN_TURN)));
    cases.push(Box::new(Execute::in_domains("many guests, eight inner and two outer domains", EIGHT_DOMAINS, TWO_DOMAINS)));
    cases.push(Box::new(Execute::trapped()));
    let list = [RVAAE1IS, TWO_MEBIBYTES, 0].repeat(16);
    cases.push(Box::new(Run { table: Filled::ManyGuests.table(2048), list, state: state() }));
    for filled in [Filled::OneGuest, Filled::ManyGuests, Filled::MostlyEmpty] {
        for slots in SIZES {
            cases.push(Box::new(LookUp::missing(filled, slots)));
        }
    }
    cases.push(Box::new(LookUp::last(Filled::ManyGuests, 2048)));
    for filled in [Filled::OneGuest, Filled::ManyGuests] {
        for slots in SIZES {
            cases.push(Box::new(Insert::last(filled, slots)));
        }
    }
    cases.push(Box::new(Insert::last(Filled::OneGuest, 1)));
    cases.push(Box::new(ReadSlot { table: Filled::OneGuest.table(16) }));
    cases
}
