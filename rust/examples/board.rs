//! One translation cache for two guests: their entries are inserted and looked up, one guest invalidates, and a list of steps is judged. The same story as
//! `examples/board.c`, with the safe types.
use chickadoor::{
    judge, Asids, Company, Entry, Granule, JudgeError, LookUpError, Name, Operation, Regime, Security, Share, State, Step, Table, Target,
};
use std::error::Error;

/// The operand of two pages of 4 KiB from 0x40000000 on, and that of four.
const TWO_PAGES: u64 = 0x0000_4000_0004_0000;
const FOUR_PAGES: u64 = 0x0000_4080_0004_0000;

/// EL1 of a board with EL2 and one processor, while this guest runs.
fn running(guest: u16) -> State {
    let mut state = State { el: 1, vmid: guest, ..State::default() };
    state.present.el2 = true;
    state.features.tlbirange = true;
    state
}

fn company(guest: u16) -> Company {
    Company { regime: Regime::El10, security: Security::NonSecure, vmid: guest, stage2: false, ns: false }
}

fn invalidation(operand: u64) -> Result<Step, Box<dyn Error>> {
    let operation = Operation { name: Name::Rvaae1, share: Share::Inner, nxs: false, tlbip: false, rt: 0 };
    operation.step(operand, 0).ok_or_else(|| "no such register".into())
}

fn insert(table: &mut Table, guest: u16, base: u64, output: u64) -> Result<(), Box<dyn Error>> {
    let page = Entry {
        processor: 0,
        company: company(guest),
        asid: 0,
        global: false,
        wide: false,
        granule: Granule::K4,
        level: 3,
        leaf: true,
        xs: false,
        base,
    };
    println!("The page of guest {} at {:#x} is in slot {}.", guest, base, table.insert(&page, output)?);
    Ok(())
}

fn look_up(table: &Table, guest: u16, address: u64) -> Result<(), Box<dyn Error>> {
    match table.look_up(&running(guest), Regime::El10, 0, address) {
        Ok(found) => println!("Guest {} finds {:#x} in slot {}: output word {:#x}.", guest, address, found.slot, found.output),
        Err(LookUpError::NotFound { examined }) => println!("Guest {} does not find {:#x} in {} slots.", guest, address, examined),
        Err(error) => return Err(error.into()),
    }
    Ok(())
}

fn invalidate(table: &mut Table, guest: u16) -> Result<(), Box<dyn Error>> {
    let dropped = table.execute(&running(guest), invalidation(TWO_PAGES)?)?;
    println!("Guest {} runs TLBI RVAAE1IS over two pages: entries that went: {}.", guest, dropped);
    Ok(())
}

fn hold(guest: u16, operand: u64) -> Result<(), Box<dyn Error>> {
    let target = Target {
        company: company(guest),
        wide: false,
        granule: Granule::K4,
        asids: Asids::All,
        leaves: false,
        processors: 1,
        first: 0x4000_0000,
        last: 0x4000_3fff,
    };
    let verdict = match judge(&running(guest), &target, &[invalidation(operand)?]) {
        Ok(()) => "is accepted".to_string(),
        Err(JudgeError::Gap(Entry { level, leaf, base, .. })) => {
            let kind = if leaf { "leaf" } else { "table entry" };
            format!("has a gap: a level {} {} at {:#x} would survive", level, kind, base)
        }
        Err(error) => return Err(error.into()),
    };
    println!("For four pages of guest {}, a list of TLBI RVAAE1IS with {:#018x} {}.", guest, operand, verdict);
    Ok(())
}

fn main() -> Result<(), Box<dyn Error>> {
    let mut words = [0; 3 * 64]; // all zeros: empty
    let mut table = Table::new(&mut words);
    insert(&mut table, 1, 0x4000_0000, 0x8000_0000)?;
    insert(&mut table, 2, 0x4000_0000, 0x9000_0000)?;
    look_up(&table, 1, 0x4000_0123)?;
    look_up(&table, 2, 0x4000_0123)?;
    invalidate(&mut table, 1)?;
    look_up(&table, 1, 0x4000_0123)?;
    look_up(&table, 2, 0x4000_0123)?;
    hold(1, TWO_PAGES)?;
    hold(1, FOUR_PAGES)
}
