//! The archive against the plain implementation: same answer, same record, same memory, on many inputs.
mod aimed;
mod draw;
mod naive;
mod plain;
mod records;

use aimed::{Case, Random};
use chickadoor::raw::{call, Built, Listed, Tailed};
use draw::Draw;
use plain::record::{Entry, Operation, State, Target};
use records::as_raw;

/// How often each answer was given: inputs that never come to an answer try nothing of it.
#[derive(Default)]
struct Tally([u32; 15]);

impl Tally {
    fn count(&mut self, answer: u32) {
        self.0[answer as usize] += 1;
    }

    fn expect(&self, call: &str, answers: &[usize]) {
        println!("{}: {:?}", call, self.0);
        for answer in answers {
            assert!(self.0[*answer] >= 50, "{}: too few inputs were answered {}: {:?}", call, answer, self.0);
        }
    }
}

#[test]
fn words() {
    let d = &mut Draw::new(1);
    let mut tally = Tally::default();
    for round in 0..200_000u64 {
        let word = match round % 4 {
            0 => 0xd508_0000 | d.below(1 << 19),
            1 => 0xd548_0000 | d.below(1 << 19),
            2 => plain::build(&draw::operation(d)).1 ^ (1 << d.below(64)),
            _ => d.next(),
        };
        let decoded = call::decode(word);
        assert_eq!(decoded, as_raw(plain::decode(word)), "{:#x}", word);
        tally.count(decoded.0);
    }
    tally.expect("decode", &[0, 1]);
}

#[test]
fn operations() {
    let d = &mut Draw::new(2);
    let mut tally = Tally::default();
    for _ in 0..100_000 {
        let operation = draw::operation(d);
        let (answer, word) = plain::build(&operation);
        assert_eq!(call::build(operation.into()), (answer, Built { word }), "{:?}", operation);
        tally.count(answer);
    }
    tally.expect("build", &[0, 8]);
}

#[test]
fn operands() {
    let d = &mut Draw::new(3);
    let (mut reads, mut writes) = (Tally::default(), Tally::default());
    for round in 0..200_000 {
        let told = draw::told(d);
        let (xt, xt2) = if round % 3 == 0 { (d.next(), d.next()) } else { draw::registers(d) };
        let read = call::read_operand(told.into(), xt, xt2);
        assert_eq!(read, as_raw(plain::read_operand(&told, xt, xt2)), "{:?} {:#x} {:#x}", told, xt, xt2);
        let fields = if round % 2 == 0 { draw::fields(d) } else { plain::read_operand(&told, xt, xt2).1 };
        let written = call::write_operand(told.into(), fields.into());
        assert_eq!(written, as_raw(plain::write_operand(&told, &fields)), "{:?} {:?}", told, fields);
        reads.count(read.0);
        writes.count(written.0);
    }
    reads.expect("read_operand", &[0, 6, 8]);
    writes.expect("write_operand", &[0, 8]);
}

/// A table of entries of the state's own and of others, with some slots of senseless words.
fn table(d: &mut Draw, state: &State) -> Vec<u64> {
    let slots = d.below(24) as usize;
    let mut table = vec![0; 3 * slots];
    for slot in table.chunks_exact_mut(3) {
        match d.below(8) {
            0 => {}
            1 => slot.iter_mut().for_each(|word| *word = d.next()),
            _ => {
                plain::insert(slot, &draw::entry(d, state), d.next());
            }
        }
        if d.once_in(12) {
            slot[1] ^= 1 << d.below(64);
        }
    }
    if d.once_in(40) {
        table.push(0);
    }
    table
}

fn word(d: &mut Draw) -> u64 {
    let operation: Operation = draw::operation(d);
    let (answer, word) = plain::build(&operation);
    if answer != 0 || d.once_in(40) {
        return d.next();
    }
    word
}

#[test]
fn inserts_and_slots() {
    let d = &mut Draw::new(4);
    let (mut inserts, mut slots) = (Tally::default(), Tally::default());
    for _ in 0..60_000 {
        let state = draw::state(d);
        let table = table(d, &state);
        let (entry, output) = (draw::entry(d, &state), d.next());
        let (mut ours, mut theirs) = (table.clone(), table.clone());
        let inserted = call::insert(&mut ours, entry.into(), output);
        assert_eq!(inserted, as_raw(plain::insert(&mut theirs, &entry, output)), "{:?}", entry);
        assert_eq!(ours, theirs);
        inserts.count(inserted.0);
        for slot in [0, d.below(24), u64::MAX] {
            let read = call::read_slot(&ours, slot as usize);
            assert_eq!(read, as_raw(plain::read_slot(&ours, slot)), "{} {:x?}", slot, ours);
            slots.count(read.0);
        }
    }
    inserts.expect("insert", &[0, 8, 9, 13]);
    slots.expect("read_slot", &[0, 8, 13, 14]);
}

#[test]
fn look_ups() {
    let d = &mut Draw::new(5);
    let mut tally = Tally::default();
    for _ in 0..60_000 {
        let state = draw::state(d);
        let table = table(d, &state);
        let regime = if d.once_in(20) { d.next() } else { d.below(4) };
        let (asid, address) = (d.below(3) as u16, draw::address(d));
        tally.count(same_look_up(&table, &state, regime, asid, address));
    }
    tally.expect("look_up", &[0, 2, 8, 13, 14]);
}

/// Addresses of entries of the table are looked up, and some beside them.
#[test]
fn aimed_look_ups() {
    let mut r = Random(10);
    let mut tally = Tally::default();
    for _ in 0..40_000 {
        let case = aimed::case(&mut r);
        let table = aimed::table(&mut r, &case);
        for slot in 0..4 {
            let entry = plain::read_slot(&table, slot).1.entry;
            let asid = if r.one_in(4) { 3 } else { entry.asid };
            let address = entry.base.wrapping_add(r.pick(&[0, 1, 0xFFF, 0x1000, 0x3FFF, 0xFFFF, 0x1F_FFFF, u64::MAX]));
            tally.count(same_look_up(&table, &case.state, entry.regime, asid as u16, address));
        }
    }
    tally.expect("look_up, aimed", &[0, 2, 14]);
}

fn same_look_up(table: &[u64], state: &State, regime: u64, asid: u16, address: u64) -> u32 {
    let found = call::look_up(table, (*state).into(), regime, asid, address);
    let expected = as_raw(plain::look_up(table, state, regime, asid.into(), address));
    assert_eq!(found, expected, "{:?} {} {} {:#x} {:x?}", state, regime, asid, address, table);
    found.0
}

#[test]
fn executions() {
    let d = &mut Draw::new(6);
    let mut tally = Tally::default();
    for _ in 0..150_000 {
        let state = draw::state(d);
        let table = table(d, &state);
        let (word, (xt, xt2)) = (word(d), draw::registers(d));
        tally.count(same_execution(&table, &state, &[word, xt, xt2]).0);
    }
    tally.expect("execute", &[0, 1, 2, 3, 4, 5, 6, 7, 13]);
}

/// Steps over tables of entries that they drop, or hardly miss.
#[test]
fn aimed_executions() {
    let mut r = Random(11);
    let (mut steps, mut entries, mut dropped) = (0, 0, 0);
    for _ in 0..80_000 {
        let case = aimed::case(&mut r);
        let table = aimed::table(&mut r, &case);
        let held = (0..table.len() as u64 / 3).filter(|slot| plain::read_slot(&table, *slot).0 == 0).count() as u64;
        for step in case.list.chunks_exact(3) {
            let (answer, gone) = same_execution(&table, &case.state, step);
            if answer == 0 {
                steps += 1;
                entries += held;
                dropped += gone;
            }
        }
    }
    println!("execute, aimed: by {} steps {} of {} entries went", steps, dropped, entries);
    assert!(dropped > entries / 10 && dropped < entries / 10 * 9);
}

/// The answer, and how many entries went.
fn same_execution(table: &[u64], state: &State, step: &[u64]) -> (u32, u64) {
    let (mut ours, mut theirs) = (table.to_vec(), table.to_vec());
    let executed = call::execute(&mut ours, (*state).into(), step[0], step[1], step[2]);
    let expected = as_raw(plain::execute(&mut theirs, state, step[0], step[1], step[2]));
    assert_eq!(executed, expected, "{:?} {:x?} {:x?}", state, step, table);
    assert_eq!(ours, theirs, "{:?} {:x?} {:x?}", state, step, table);
    (executed.0, executed.1.dropped)
}

/// Tables and lists of every size about those that are still good.
#[test]
fn sizes() {
    let d = &mut Draw::new(13);
    let mut tally = Tally::default();
    for words in [0, 1, 2, 3, 4, 5, 6, 6140, 6141, 6142, 6143, 6144, 6145, 6146, 6147, 9000] {
        for list_words in [0, 1, 2, 3, 4, 45, 46, 47, 48, 49, 50, 51, 96] {
            let Case { state, target, list } = case_of(d, list_words);
            let mut table = vec![0; words];
            // The last slot holds what the list drops, so that the whole table has to be walked.
            if let Some(last) = table.chunks_exact_mut(3).last() {
                plain::insert(last, &entry_of(&target), 1);
            }
            tally.count(same_run(&table, &state, &list).0);
            tally.count(same_judgement(&Case { state, target, list }));
            tally.count(same_look_up(&table, &state, target.regime, 0, target.first));
            tally.count(same_execution(&table, &state, &LIST[..3]).0);
            let entry = entry_of(&target);
            let (mut ours, mut theirs) = (table.clone(), table);
            assert_eq!(call::insert(&mut ours, entry.into(), 2), as_raw(plain::insert(&mut theirs, &entry, 2)));
            assert_eq!(ours, theirs);
            for slot in (words / 3).saturating_sub(1)..words / 3 + 2 {
                assert_eq!(call::read_slot(&ours, slot), as_raw(plain::read_slot(&theirs, slot as u64)));
            }
        }
    }
    tally.expect("sizes", &[0, 13]);
}

/// RVAAE1IS over two pages from 0x40000000 on, and over the two behind.
const LIST: [u64; 6] = [0xD508_8260, 0x0000_4000_0004_0000, 0, 0xD508_8260, 0x0000_4000_0004_0002, 0];

/// A state at EL1, a target of one to four pages, and a list of so many words.
fn case_of(d: &mut Draw, list_words: usize) -> Case {
    let state = State { el: 1, tlbirange: 1, count: 1, ..State::default() };
    let last = 0x4000_0FFF + (d.below(4) << 12);
    let target = Target { security: 1, granule: 1, processors: 1, first: 0x4000_0000, last, ..Target::default() };
    Case { state, target, list: LIST.iter().copied().cycle().take(list_words).collect() }
}

/// The page at a target's first address.
fn entry_of(target: &Target) -> Entry {
    Entry { security: 1, granule: 1, level: 3, leaf: 1, base: target.first, ..Entry::default() }
}

/// Steps that mostly run in the state.
fn list(d: &mut Draw, state: &State) -> Vec<u64> {
    let mut list = Vec::new();
    let steps = d.below(18);
    for _ in 0..steps {
        let mut step = [word(d), 0, 0];
        for _ in 0..4 {
            let (xt, xt2) = draw::registers(d);
            step = [word(d), xt, xt2];
            if plain::execute(&mut [], state, step[0], xt, xt2).0 == 0 {
                break;
            }
        }
        list.extend_from_slice(&step);
    }
    if d.once_in(40) {
        list.pop();
    }
    list
}

#[test]
fn runs() {
    let d = &mut Draw::new(7);
    let mut tally = Tally::default();
    for _ in 0..40_000 {
        let state = draw::state(d);
        let (table, list) = (table(d, &state), list(d, &state));
        tally.count(same_run(&table, &state, &list).0);
    }
    tally.expect("run", &[0, 2, 10, 13]);
}

/// Lists and their beginnings.
#[test]
fn aimed_runs() {
    let mut r = Random(12);
    let (mut tally, mut dropping) = (Tally::default(), 0);
    for _ in 0..40_000 {
        let case = aimed::case(&mut r);
        let table = aimed::table(&mut r, &case);
        for end in (0..=case.list.len()).step_by(3) {
            let (answer, dropped) = same_run(&table, &case.state, &case.list[..end]);
            tally.count(answer);
            dropping += u32::from(dropped > 0);
        }
    }
    tally.expect("run, aimed", &[0, 2, 10, 13]);
    println!("run, aimed: {} dropped something", dropping);
    assert!(dropping >= 10_000);
}

/// The answer, and how many entries went.
fn same_run(table: &[u64], state: &State, list: &[u64]) -> (u32, u64) {
    let (mut ours, mut theirs) = (table.to_vec(), table.to_vec());
    let ran = call::run(&mut ours, (*state).into(), list);
    assert_eq!(ran, as_raw(plain::run(&mut theirs, state, list)), "{:?} {:x?} {:x?}", state, list, table);
    assert_eq!(ours, theirs, "{:?} {:x?} {:x?}", state, list, table);
    (ran.0, ran.1.dropped)
}

#[test]
fn judgements() {
    let d = &mut Draw::new(8);
    let mut tally = Tally::default();
    for _ in 0..60_000 {
        let state = draw::state(d);
        let (target, list) = (draw::target(d, &state), list(d, &state));
        tally.count(same_judgement(&Case { state, target, list }));
    }
    tally.expect("judge", &[2, 8, 10, 11, 12, 13]);
}

/// Lists and their beginnings.
#[test]
fn aimed_judgements() {
    let mut r = Random(9);
    let mut tally = Tally::default();
    for _ in 0..80_000 {
        let Case { state, target, list } = aimed::case(&mut r);
        for end in (0..=list.len()).step_by(3) {
            tally.count(same_judgement(&Case { state, target, list: list[..end].to_vec() }));
        }
    }
    tally.expect("judge, aimed", &[0, 2, 8, 10, 11, 12, 13]);
}

fn same_judgement(case: &Case) -> u32 {
    let Case { state, target, list } = case;
    let judged = call::judge((*state).into(), (*target).into(), list);
    assert_eq!(judged, as_raw(plain::judge(state, target, list)), "{:?} {:?} {:x?}", state, target, list);
    judged.0
}

#[test]
fn listings() {
    let d = &mut Draw::new(9);
    for _ in 0..20_000 {
        let mut code = Vec::new();
        for _ in 0..d.below(20) {
            code.extend_from_slice(&(word(d) as u32).to_le_bytes());
        }
        code.truncate(code.len().saturating_sub(d.below(4) as usize));
        let at = if d.once_in(4) { d.next() } else { d.below(1000) };
        let room = d.below(400) as usize;
        let mut text = vec![b'#'; room];
        let (answer, listed) = call::list(&code, at, &mut text);
        let (expected, lines) = plain::list(&code, at, room);
        assert_eq!((answer, listed), (0, Listed::from(expected)));
        assert_eq!(&text[..lines.len()], lines);
        assert!(text[lines.len()..].iter().all(|byte| *byte == b'#'));
        let left = d.below(5) as usize;
        let (answer, tailed) = call::tail(left, &mut text);
        let line = plain::tail(left, room);
        assert_eq!((answer, tailed), (0, Tailed { written: line.len() as u64 }));
        assert_eq!(&text[..line.len()], line);
    }
}
