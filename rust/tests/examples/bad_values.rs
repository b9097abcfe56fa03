//! Values that a field cannot have, and inputs of any bits: nothing panics, and every answer but 0 leaves the table and the record alone.

use super::*;
use crate::plain::record::{Fields, Found, Inserted, Listed, Operation, Ran, Slot, Told};

/// "a flag in State that is not 0 or 1 makes the state bad (2)".
#[test]
fn flags_of_a_state() {
    type Set = fn(&mut State, u8);
    let flags: [Set; 40] = [
        |s, v| s.el2 = v,
        |s, v| s.el3 = v,
        |s, v| s.tlbirange = v,
        |s, v| s.tlbios = v,
        |s, v| s.d128 = v,
        |s, v| s.xs = v,
        |s, v| s.lpa2 = v,
        |s, v| s.rme = v,
        |s, v| s.sel2 = v,
        |s, v| s.fgt = v,
        |s, v| s.hcx = v,
        |s, v| s.scr_ns = v,
        |s, v| s.scr_nse = v,
        |s, v| s.scr_eel2 = v,
        |s, v| s.scr_fgten = v,
        |s, v| s.scr_hxen = v,
        |s, v| s.hcr_e2h = v,
        |s, v| s.hcr_tge = v,
        |s, v| s.hcr_ttlb = v,
        |s, v| s.hcr_ttlbis = v,
        |s, v| s.hcr_ttlbos = v,
        |s, v| s.hcr_nv = v,
        |s, v| s.hcrx_fnxs = v,
        |s, v| s.hcrx_fgtnxs = v,
        |s, v| s.trap_rvae1 = v,
        |s, v| s.trap_rvae1is = v,
        |s, v| s.trap_rvae1os = v,
        |s, v| s.trap_rvaae1 = v,
        |s, v| s.trap_rvaae1is = v,
        |s, v| s.trap_rvaae1os = v,
        |s, v| s.trap_rvale1 = v,
        |s, v| s.trap_rvale1is = v,
        |s, v| s.trap_rvale1os = v,
        |s, v| s.trap_rvaale1 = v,
        |s, v| s.trap_rvaale1is = v,
        |s, v| s.trap_rvaale1os = v,
        |s, v| s.ds_el1 = v,
        |s, v| s.ds_el2 = v,
        |s, v| s.ds_el3 = v,
        |s, v| s.ds_stage2 = v,
    ];
    for set in flags {
        for value in [2, 3, 128, 255] {
            let mut state = at_el3(1);
            set(&mut state, value);
            assert_eq!(answer(&state, sys(6, 6, 1), M1), 2);
        }
    }
    assert_eq!(answer(&at_el3(1), sys(6, 6, 1), M1), 0);
}

/// "in an Entry or Target any value that the field cannot have ... makes it break a rule (8)".
#[test]
fn values_of_entries_and_targets() {
    let good = page(0);
    let bad = [
        Entry { processor: 8, ..good },
        Entry { regime: 4, ..good },
        Entry { security: 4, ..good },
        Entry { vmid: 0x10000, ..good },
        Entry { asid: 0x10000, ..good },
        Entry { global: 2, ..good },
        Entry { stage2: 2, ..good },
        Entry { ns: 2, ..good },
        Entry { ns: 1, ..good },
        Entry { wide: 2, ..good },
        Entry { granule: 0, ..good },
        Entry { granule: 4, ..good },
        Entry { level: 4, ..good },
        Entry { level: 0, ..good },
        Entry { leaf: 2, ..good },
        Entry { leaf: 0, ..good },
        Entry { xs: 2, ..good },
        Entry { regime: 2, asid: 1, ..good },
        Entry { regime: 2, global: 1, ..good },
        Entry { stage2: 1, asid: 1, ..good },
        Entry { stage2: 1, global: 1, ..good },
    ];
    for entry in bad {
        assert_eq!(plain::insert(&mut [0; 3], &entry, 0), (8, Inserted::default()), "{:?}", entry);
    }
    let good = m11_target();
    let bad = [
        Target { regime: 4, ..good },
        Target { security: 4, ..good },
        Target { vmid: 0x10000, ..good },
        Target { stage2: 2, ..good },
        Target { ns: 2, ..good },
        Target { wide: 2, ..good },
        Target { granule: 0, ..good },
        Target { granule: 4, ..good },
        Target { one: 2, ..good },
        Target { one: 1, asid: 0x10000, ..good },
        Target { asid: 0x10000, ..good },
        Target { leaves: 2, ..good },
    ];
    for target in bad {
        assert_eq!(plain::judge(&plain_state(), &target, &[]), (8, NOTHING), "{:?}", target);
    }
}

/// "read_slot: 13 bad shape; 8 if there is no such slot; 14 if it reads as empty; 0 with entry and output word".
#[test]
fn slots_that_are_not_there() {
    let table = table_of(&[page(0)]);
    assert_eq!(plain::read_slot(&table[..2], 0), (13, Slot::default()));
    for slot in [1, 1 << 62, u64::MAX] {
        assert_eq!(plain::read_slot(&table, slot), (8, Slot::default()));
    }
    assert_eq!(plain::read_slot(&[0; 3], 0), (14, Slot::default()));
    assert_eq!(plain::read_slot(&table, 0), (0, Slot { entry: page(0), output: 100 }));
}

struct Random(u64);

impl Random {
    fn next(&mut self) -> u64 {
        self.0 ^= self.0 << 13;
        self.0 ^= self.0 >> 7;
        self.0 ^= self.0 << 17;
        self.0
    }

    /// A small number, an extreme one, or any bits.
    fn value(&mut self) -> u64 {
        let value = self.next();
        match self.next() % 8 {
            0..=4 => value % 4,
            5 => u64::MAX - value % 3,
            6 => 1 << (value % 64),
            _ => value,
        }
    }

    fn byte(&mut self) -> u8 {
        let value = self.next();
        if value % 64 == 0 {
            (value >> 8) as u8
        } else {
            (value >> 8) as u8 & 1
        }
    }

    fn state(&mut self) -> State {
        let mut s = State { el: (self.next() % 4) as u8, el2: 1, el3: self.byte(), tlbirange: 1, tlbios: 1, ..State::default() };
        s.d128 = self.byte();
        s.xs = self.byte();
        s.lpa2 = self.byte();
        s.hcx = self.byte();
        s.scr_ns = self.byte();
        s.hcr_e2h = self.byte();
        s.hcr_tge = self.byte();
        s.ds_el1 = self.byte();
        s.own = self.byte();
        s.count = 1 + (self.next() % 9) as u8;
        s.inner[1] = self.byte();
        s.vmid = self.next() as u16;
        s
    }

    fn entry(&mut self) -> Entry {
        Entry {
            processor: self.value(),
            regime: self.value(),
            security: self.value(),
            vmid: self.value(),
            asid: self.value(),
            global: self.value(),
            stage2: self.value(),
            ns: self.value(),
            wide: self.value(),
            granule: self.value(),
            level: self.value() as i64,
            leaf: self.value(),
            xs: self.value(),
            base: self.value() << 12,
        }
    }

    fn target(&mut self) -> Target {
        Target {
            regime: self.value(),
            security: self.value(),
            vmid: self.value(),
            stage2: self.value(),
            ns: self.value(),
            wide: self.value(),
            granule: self.value(),
            one: self.value(),
            asid: self.value(),
            leaves: self.value(),
            processors: self.value(),
            first: self.value(),
            last: self.value(),
        }
    }

    fn word(&mut self) -> u64 {
        let name = self.next() % 10;
        let op = Operation { name, share: self.next() % 3, nxs: self.next() & 1, tlbip: self.next() & 1, rt: self.next() % 32 };
        match self.next() % 8 {
            0 => self.value(),
            _ => plain::build(&op).1,
        }
    }
}

/// "No input may panic (also not in debug builds with overflow checks)".
#[test]
fn any_bits() {
    let mut r = Random(0x9E37_79B9_7F4A_7C15);
    for _ in 0..30_000 {
        let state = r.state();
        let mut table: Vec<u64> = (0..r.next() % 13).map(|_| r.value()).collect();
        let before = table.clone();
        let (number, inserted) = plain::insert(&mut table, &r.entry(), r.value());
        assert!(number == 0 || (table == before && inserted == Inserted::default()));
        table.iter_mut().skip(1).step_by(3).for_each(|tag| *tag ^= r.value() << 4);
        let before = table.clone();
        let (number, executed) = plain::execute(&mut table, &state, r.word(), r.next(), r.value());
        let nothing = Executed { dropped: 0, trap: if number == 4 { executed.trap } else { 0 } };
        assert!(number == 0 || (table == before && executed == nothing));
        let list: Vec<u64> = (0..r.next() % 5).flat_map(|_| [r.word(), r.next(), r.next()]).collect();
        let before = table.clone();
        let (number, ran) = plain::run(&mut table, &state, &list);
        assert!(number == 0 || (table == before && ran.dropped == 0) || ran == Ran::default());
        let (number, judged) = plain::judge(&state, &r.target(), &list);
        assert!(number == 12 || judged.survivor == Entry::default());
        let (number, found) = plain::look_up(&table, &state, r.value(), r.value(), r.value());
        assert!(number == 0 || number == 14 || found == Found::default());
        let (number, slot) = plain::read_slot(&table, r.value());
        assert!(number == 0 || slot == Slot::default());
        operands(&mut r);
    }
}

fn operands(r: &mut Random) {
    let told = Told { tlbip: r.value(), form: r.value(), lpa2: r.value(), unit64k: r.value() };
    let (number, fields) = plain::read_operand(&told, r.value(), r.value());
    assert!(number == 0 || fields == Fields::default());
    let fields =
        Fields { asid: r.value(), ns: r.value(), tg: r.value(), scale: r.value(), num: r.value(), ttl: r.value(), base: r.value() << 16 };
    let (number, words) = plain::write_operand(&told, &fields);
    assert!(number == 8 || plain::read_operand(&told, words.xt, words.xt2) == (0, fields));
    let code: Vec<u8> = (0..r.next() % 20).map(|_| r.next() as u8).collect();
    let (listed, text) = plain::list(&code, r.value(), r.value() as usize);
    assert!(listed.used as usize <= code.len() && listed.written == text.len() as u64);
    assert!(listed != Listed::default() || text.is_empty());
    assert!(plain::tail(r.value() as usize, r.value() as usize).len() <= 26);
}
