//! The safe types: the requirements' marked examples by them, and every error that a call can give.
use chickadoor::{
    judge, list, list_words, Asids, BreaksRule, Company, Entry, ExecuteError, Form, Granule, InsertError, JudgeError, LookUpError, Name,
    NoGranule, Operand, Operation, Regime, RunError, Security, Share, State, Step, Table, Target, Told,
};

const RVAAE1IS: u64 = 0xd508_8260;
const M1: u64 = 0x0000_4000_0004_0000;
const M12: u64 = 0x0000_4080_0004_0000;

fn state() -> State {
    let mut state = State { el: 1, ..State::default() };
    state.features.tlbirange = true;
    state
}

fn company() -> Company {
    Company { regime: Regime::El10, security: Security::NonSecure, vmid: 0, stage2: false, ns: false }
}

fn leaf(level: i8, base: u64) -> Entry {
    let granule = Granule::K4;
    Entry { processor: 0, company: company(), asid: 0, global: false, wide: false, granule, level, leaf: true, xs: false, base }
}

fn page(base: u64) -> Entry {
    leaf(3, base)
}

fn target() -> Target {
    Target {
        company: company(),
        wide: false,
        granule: Granule::K4,
        asids: Asids::All,
        leaves: false,
        processors: 1,
        first: 0x4000_0000,
        last: 0x4000_3fff,
    }
}

fn step(xt: u64) -> Step {
    Step { word: RVAAE1IS, xt, xt2: 0 }
}

/// Which of the entries a step leaves; how many went is told.
fn left(state: &State, step: Step, entries: &[Entry]) -> Vec<Entry> {
    let mut words = vec![0; 3 * entries.len()];
    let mut table = Table::new(&mut words);
    for (slot, entry) in entries.iter().enumerate() {
        assert_eq!(table.insert(entry, 7), Ok(slot));
    }
    let dropped = table.execute(state, step).expect("a step that is done");
    let left: Vec<Entry> = (0..table.slots()).filter_map(|slot| table.read(slot)).map(|(entry, _)| entry).collect();
    assert_eq!(dropped + left.len(), entries.len());
    left
}

fn error(state: &State, step: Step) -> ExecuteError {
    Table::new(&mut []).execute(state, step).expect_err("a step that is not done")
}

#[test]
fn m1_to_m3_and_m7_pages() {
    let pages = [0x3fff_f000, 0x4000_0000, 0x4000_1000, 0x4000_2000].map(page);
    assert_eq!(left(&state(), step(M1), &pages), [pages[0], pages[3]]);
    let mut lpa2 = state();
    lpa2.features.lpa2 = true;
    lpa2.ds.el1 = true;
    assert_eq!(left(&lpa2, step(0x0000_4000_0000_4000), &pages), [pages[0], pages[3]]);
    let pages = [0, 0x1_ffff_f000, 0x2_0000_0000].map(page);
    assert_eq!(left(&state(), step(0x0000_7f80_0000_0000), &pages), [pages[2]]);
    let pages = [0xffff_ffff_ffff_e000, 0xffff_ffff_ffff_f000, 0].map(page);
    assert_eq!(left(&state(), step(0x0000_401f_ffff_ffff), &pages), [pages[0], pages[2]]);
}

#[test]
fn m4_to_m6_and_m8_hints_and_granules() {
    assert_eq!(error(&state(), step(0x0000_4040_0004_0001)), ExecuteError::Unpredictable);
    let leaves = [leaf(2, 0x4000_0000), leaf(3, 0x4000_0000)];
    assert_eq!(left(&state(), step(0x0000_4040_0004_0000), &leaves), [leaves[1]]);
    assert_eq!(error(&state(), step(0x0000_0000_0004_0000)), ExecuteError::NoGranule);
    let pages = [0, 0x4000, 0x8000, 0xc000].map(|base| Entry { granule: Granule::K16, ..page(base) });
    assert_eq!(left(&state(), step(0x0000_8020_0000_0001), &pages), [pages[0], pages[3]]);
}

#[test]
fn m9_and_m10_ripas2() {
    let word = 0xd54c_80c0;
    let mut state = State { el: 1, ..State::default() };
    state.present.el2 = true;
    state.features.d128 = true;
    state.hcr.nv = true;
    assert_eq!(error(&state, Step { word, xt: M1, xt2: 0 }), ExecuteError::Trapped(0x14));
    state.el = 3;
    state.present.el3 = true;
    assert_eq!(error(&state, Step { word, xt: M1, xt2: 0 }), ExecuteError::NoEffect);
}

#[test]
fn m11_and_m12_judging() {
    let survivor = Entry { xs: true, ..page(0x4000_2000) };
    assert_eq!(judge(&state(), &target(), &[step(M1)]), Err(JudgeError::Gap(survivor)));
    assert_eq!(judge(&state(), &target(), &[step(M12)]), Ok(()));
}

#[test]
fn every_field_of_an_entry_is_read_back() {
    let stage2 = Company { security: Security::Secure, vmid: 0xfffe, stage2: true, ns: true, ..company() };
    let host = Company { regime: Regime::El20, security: Security::Realm, ..company() };
    let root = Company { regime: Regime::El3, security: Security::Root, ..company() };
    let entries = [
        Entry { processor: 7, asid: 0xfffd, global: true, xs: true, ..page(0xffff_ffff_ffff_f000) },
        Entry { company: stage2, wide: true, granule: Granule::K64, level: 0, leaf: false, base: 1 << 52, ..page(0) },
        Entry { company: host, granule: Granule::K16, level: 2, base: 1 << 25, ..page(0) },
        Entry { company: root, wide: true, level: -1, leaf: false, ..page(0) },
        Entry { company: Company { regime: Regime::El2, ..company() }, ..page(0x1000) },
    ];
    for entry in entries {
        let mut words = [0; 3];
        let mut table = Table::new(&mut words);
        assert_eq!(table.read(0), None);
        assert_eq!(table.insert(&entry, 5), Ok(0), "{}", entry);
        assert_eq!((table.read(0), table.read(1)), (Some((entry, 5)), None));
    }
}

#[test]
fn inserting() {
    let mut words = [0; 6];
    let mut table = Table::new(&mut words);
    assert_eq!(table.insert(&page(1), 0), Err(InsertError::Illegal));
    assert_eq!((table.insert(&page(0), 10), table.insert(&page(0x1000), 11)), (Ok(0), Ok(1)));
    assert_eq!(table.insert(&page(0x2000), 12), Err(InsertError::Full));
    assert_eq!(Table::new(&mut [0; 4]).insert(&page(0), 0), Err(InsertError::BadShape));
}

#[test]
fn looking_up() {
    let mut words = [0; 6];
    let mut table = Table::new(&mut words);
    table.insert(&Entry { asid: 1, ..page(0) }, 10).expect("room");
    table.insert(&page(0), 11).expect("room");
    let found = table.look_up(&state(), Regime::El10, 0, 0xfff).expect("the second");
    assert_eq!((found.slot, found.output, found.examined), (1, 11, 2));
    assert_eq!(table.look_up(&state(), Regime::El20, 0, 0), Err(LookUpError::NotFound { examined: 2 }));
    assert_eq!(table.look_up(&State { el: 2, ..state() }, Regime::El10, 0, 0), Err(LookUpError::BadState));
    assert_eq!(Table::new(&mut [0; 4]).look_up(&state(), Regime::El10, 0, 0), Err(LookUpError::BadShape));
}

#[test]
fn executing() {
    assert_eq!(error(&State { el: 4, ..state() }, step(M1)), ExecuteError::BadState);
    assert_eq!(error(&state(), Step { word: 1 << 32 | RVAAE1IS, ..step(M1) }), ExecuteError::Unknown);
    assert_eq!(error(&State { el: 0, ..state() }, step(M1)), ExecuteError::Undefined);
    assert_eq!(Table::new(&mut [0; 4]).execute(&state(), step(M1)), Err(ExecuteError::BadShape));
    let mut trapping = state();
    trapping.present.el2 = true;
    trapping.traps.rvaae1.inner = true;
    trapping.features.fgt = true;
    assert_eq!(error(&trapping, step(M1)), ExecuteError::Trapped(0x18));
}

#[test]
fn running() {
    let mut words = [0; 9];
    let mut table = Table::new(&mut words);
    for base in [0x4000_0000, 0x4000_2000, 0x4000_4000] {
        table.insert(&page(base), 0).expect("room");
    }
    assert_eq!(table.run(&state(), &[step(M1), step(0)]), Err(RunError::Refused { step: 1 }));
    assert_eq!(table.run(&State { el: 3, ..state() }, &[]), Err(RunError::BadState));
    assert_eq!(table.run(&state(), &[step(M1); 17]), Err(RunError::BadShape));
    assert_eq!(table.run(&state(), &[step(M1), step(M12)]), Ok(2));
    assert_eq!(table.read(2), Some((page(0x4000_4000), 0)));
    assert_eq!(table.words()[..6], [0; 6]);
}

#[test]
fn judging() {
    assert_eq!(judge(&state(), &target(), &[step(M1); 17]), Err(JudgeError::BadShape));
    assert_eq!(judge(&State { el: 2, ..state() }, &target(), &[]), Err(JudgeError::BadState));
    assert_eq!(judge(&state(), &Target { processors: 2, ..target() }, &[]), Err(JudgeError::BadTarget));
    assert_eq!(judge(&state(), &target(), &[step(M12), step(0)]), Err(JudgeError::Refused { step: 1 }));
    let other = Target { company: Company { vmid: 7, ..company() }, ..target() };
    assert_eq!(judge(&state(), &other, &[step(M12)]), Err(JudgeError::Outside { step: 0 }));
    let one = Target { asids: Asids::One(5), ..target() };
    assert_eq!(judge(&state(), &one, &[Step { word: 0xd508_8620, xt: M12 | 5 << 48, xt2: 0 }]), Ok(()));
    assert_eq!(list_words(&[step(M1), Step { word: 1, xt: 2, xt2: 3 }]), [RVAAE1IS, M1, 0, 1, 2, 3]);
}

#[test]
fn operations_and_their_text() {
    for name in Name::ALL {
        for share in Share::ALL {
            for (nxs, tlbip, rt) in [(false, false, 0), (true, false, 31), (false, true, 30), (true, true, 4)] {
                let operation = Operation { name, share, nxs, tlbip, rt };
                let word = operation.encode().expect("a register");
                assert_eq!(Operation::decode(word.into()), Some(operation));
                assert_eq!(list(&word.to_le_bytes()), format!("0 {}\n", operation));
                assert_eq!(operation.step(1, 2), Some(Step { word: word.into(), xt: 1, xt2: 2 }));
                assert_eq!(Operation { rt: 32, ..operation }.encode(), None);
            }
        }
    }
    assert_eq!(Operation::decode(0xd503_201f), None);
}

#[test]
fn the_listing_of_the_requirements() {
    let mut code: Vec<u8> = [0xd508_8260u32, 0xd503_201f, 0xd50e_85a0, 0xd54c_8620].iter().flat_map(|word| word.to_le_bytes()).collect();
    code.push(0x60);
    assert_eq!(list(&code), "0 TLBI RVAAE1IS, X0\n8 TLBI RVALE3OS, X0\n12 TLBIP RVAE2, X0, X1\ntail 1\n");
    // Longer than one piece of text.
    let long = list(&0xd508_8260u32.to_le_bytes().repeat(1000));
    assert_eq!((long.lines().count(), long.lines().last()), (1000, Some("3996 TLBI RVAAE1IS, X0")));
}

#[test]
fn operands() {
    let told = Told { tlbip: false, form: Form::TwoRangesAsid, lpa2: false, unit64k: false };
    let operand = Operand { asid: 0xabcd, ns: false, granule: Granule::K4, scale: 1, num: 2, ttl: 3, base: 0x4000_0000 };
    let (xt, xt2) = told.write(&operand).expect("an operand");
    assert_eq!((xt, xt2), (0xabcd << 48 | 1 << 46 | 1 << 44 | 2 << 39 | 3 << 37 | 0x40000, 0));
    assert_eq!(told.read(xt, xt2), Ok(operand));
    assert_eq!(told.read(0, 0), Err(NoGranule));
    assert_eq!(told.write(&Operand { ns: true, ..operand }), Err(BreaksRule));
    let stage2 = Told { form: Form::Stage2Ns, ..told };
    assert_eq!(stage2.read(1 << 63 | M1, 0).map(|operand| operand.ns), Ok(true));
}

#[test]
fn entries_in_words() {
    let entry = Entry { asid: 5, company: Company { vmid: 7, ..company() }, ..page(0x4000_2000) };
    let words = "a 64-bit level 3 leaf at 0x40002000 (4 KiB granule) on processor 0, of Non-secure EL1&0 of VMID 7, ASID 5, XS 0";
    assert_eq!(entry.to_string(), words);
    let company = Company { security: Security::Secure, stage2: true, ns: true, ..company() };
    let stage2 = Entry { company, wide: true, granule: Granule::K64, level: 0, leaf: false, base: 1 << 52, xs: true, ..entry };
    let words =
        "a 128-bit level 0 table entry at 0x10000000000000 (64 KiB granule) on processor 0, of Secure EL1&0 of VMID 0, stage 2 (NS), XS 1";
    assert_eq!(stage2.to_string(), words);
}
