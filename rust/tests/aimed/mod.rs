//! Cases whose parts are aimed at each other: the steps of a list act on the same place, the target is mostly theirs, and the entries of a table lie there, so
//! that every answer comes up and every rule decides.
#![allow(dead_code)]

use crate::naive::{has_asids, hit_by, in_company, legal, of_company, span};
use crate::plain;
use crate::plain::record::{Entry, Operation, State, Target};

/// What a judge is given.
pub struct Case {
    pub state: State,
    pub target: Target,
    pub list: Vec<u64>,
}

pub fn case(r: &mut Random) -> Case {
    let state = random_state(r);
    let theme = random_theme(r, &state);
    let steps = if r.one_in(50) { 17 } else { r.below(6) };
    let list: Vec<u64> = (0..steps).flat_map(|_| random_step(r, &theme)).collect();
    let target = if list.len() > 48 { Target::default() } else { random_target(r, &state, &theme, &list) };
    Case { state, target, list }
}

pub struct Random(pub u64);

impl Random {
    pub fn next(&mut self) -> u64 {
        self.0 ^= self.0 << 13;
        self.0 ^= self.0 >> 7;
        self.0 ^= self.0 << 17;
        self.0
    }

    pub fn below(&mut self, bound: u64) -> u64 {
        (self.next() >> 20) % bound
    }

    pub fn one_in(&mut self, n: u64) -> bool {
        self.below(n) == 0
    }

    pub fn flag(&mut self) -> u8 {
        self.below(2) as u8
    }

    pub fn pick(&mut self, of: &[u64]) -> u64 {
        of[self.below(of.len() as u64) as usize]
    }
}

fn random_state(r: &mut Random) -> State {
    let el = 1 + r.below(3) as u8;
    let rare = |r: &mut Random| u8::from(r.one_in(8));
    let mut s = State { el, el2: 1, el3: u8::from(el == 3) | r.flag(), tlbirange: 1, tlbios: 1, ..State::default() };
    s.el2 = u8::from(el == 2 || !r.one_in(3));
    s.rme = s.el3 & r.flag();
    s.scr_ns = r.flag();
    s.scr_nse = s.scr_ns & r.flag();
    s.sel2 = 1;
    s.scr_eel2 = u8::from(el == 2) | r.flag();
    s.d128 = r.flag();
    s.xs = r.flag();
    s.lpa2 = r.flag();
    s.hcx = rare(r);
    s.hcrx_fnxs = s.hcx;
    s.hcr_e2h = r.flag();
    s.hcr_tge = r.flag();
    s.hcr_ttlbos = rare(r) & rare(r);
    s.ds_el1 = r.flag();
    s.ds_el2 = r.flag();
    s.ds_el3 = r.flag();
    s.ds_stage2 = r.flag();
    s.vmid = r.pick(&[0, 7, 0xFFFF]) as u16;
    s.count = 1 + r.below(3) as u8;
    s.own = r.below(u64::from(s.count)) as u8;
    for p in 0..3 {
        s.inner[p] = r.pick(&[0, 0, 1]) as u8;
        s.outer[p] = s.inner[p] & r.flag();
    }
    s
}

/// What the steps of one list have in common: the names' numbers, the place and granule that they mostly act on.
struct Theme {
    names: &'static [u64],
    center: u64,
    granule: u64,
    unit64k: bool,
    tlbip: u64,
    d128: bool,
    xs: bool,
}

fn random_theme(r: &mut Random, s: &State) -> Theme {
    let families: [&[u64]; 4] = [&[0, 1, 1, 1, 2, 3], &[4, 4, 5], &[6, 6, 7], &[8, 8, 9]];
    let family = match s.el {
        1 => 0,
        2 => r.pick(&[0, 1, 3]),
        _ => r.below(4),
    };
    let ds = match (family, s.el > 1 && s.hcr_e2h == 1 && s.hcr_tge == 1) {
        (0, false) => s.ds_el1,
        (0, true) | (1, _) => s.ds_el2,
        (2, _) => s.ds_el3,
        _ => s.ds_stage2,
    };
    let places = [0, 1 << 42, 0x0003_4567_8000_0000, 1 << 48, (1 << 52) - (1 << 42), 0xFFFF_8000_0000_0000, u64::MAX << 42];
    let granule = 1 + r.below(3);
    // Near the top of 2^64 the ranges are cut.
    let center = if r.one_in(12) { u64::MAX << 17 } else { r.pick(&places) };
    let unit64k = s.lpa2 == 1 && ds == 1;
    let tlbip = u64::from(s.d128) & r.below(2);
    Theme { names: families[family as usize], center, granule, unit64k, tlbip, d128: s.d128 == 1, xs: s.xs == 1 }
}

fn granule_exponent(granule: u64) -> u64 {
    10 + 2 * granule
}

fn random_step(r: &mut Random, theme: &Theme) -> [u64; 3] {
    let tlbip = if r.one_in(6) && theme.d128 { 1 - theme.tlbip } else { theme.tlbip };
    let name = if r.one_in(60) { r.below(10) } else { r.pick(theme.names) };
    let share = r.pick(&[0, 1, 1, 2, 2]);
    let rt = if r.one_in(40) { 30 } else { 2 * r.below(15) };
    let op = Operation { name, share, nxs: u64::from(theme.xs && r.one_in(8)), tlbip, rt };
    let word = if r.one_in(100) { r.next() } else { plain::build(&op).1 };
    let tg = if r.one_in(12) { r.below(4) } else { theme.granule };
    let ttl = r.pick(&[0, 0, 1, 2, 3]);
    // A hint wants an aligned base, and the centers mostly are aligned.
    let shift = if (ttl == 1 || ttl == 2) && !r.one_in(30) { 0 } else { r.pick(&[0, 0, 1, 2, 4, 8]) };
    let base = theme.center.wrapping_add(shift << granule_exponent(theme.granule));
    let unit = if theme.unit64k != r.one_in(40) { 16 } else { granule_exponent(tg) };
    let low = if tlbip == 1 { 0 } else { base >> unit & ((1 << 37) - 1) };
    let scale = if r.one_in(10) { r.below(4) } else { 0 };
    let top = r.pick(&[0, 0, 1, 2, 3, 0x8000, 0xFFFF]);
    let xt = top << 48 | tg << 46 | scale << 44 | r.below(8) << 39 | ttl << 37 | low;
    [word, xt, base >> 12]
}

/// A company that the first step may well have, found by trying which one it drops.
fn random_company(r: &mut Random, s: &State, list: &[u64]) -> Target {
    let vmids = [0, u64::from(s.vmid)];
    let mut all = Vec::new();
    for code in 0..128u64 {
        let (regime, security, vmid) = (code & 3, code >> 2 & 3, vmids[(code >> 4 & 1) as usize]);
        let t = Target { regime, security, vmid, stage2: code >> 5 & 1, ns: code >> 6 & 1, ..Target::default() };
        if legal(&Entry { granule: 1, level: 3, leaf: 1, ..of_company(&t) }) {
            all.push(t);
        }
    }
    let good = !list.is_empty() && plain::execute(&mut [], s, list[0], list[1], list[2]).0 == 0;
    let found = if good { all.iter().copied().find(|t| in_company(s, t, &list[..3])) } else { None };
    let any = r.below(all.len() as u64) as usize;
    found.filter(|_| !r.one_in(30)).unwrap_or(all[any])
}

fn random_target(r: &mut Random, s: &State, theme: &Theme, list: &[u64]) -> Target {
    let mut t = random_company(r, s, list);
    t.wide = if r.one_in(8) { 1 - theme.tlbip } else { theme.tlbip };
    t.granule = if r.one_in(20) { 1 + r.below(3) } else { theme.granule };
    t.one = u64::from(if has_asids(&t) { r.one_in(2) } else { r.one_in(30) });
    t.asid = list.get(1).map_or(0, |xt| xt >> 48);
    if r.one_in(6) {
        t.asid = r.pick(&[0, 1, 2, 0xFFFF]);
    }
    t.leaves = r.below(2);
    let existing = (1 << s.count) - 1;
    t.processors = if r.one_in(3) { (1 + r.below(7)) & existing } else { 1 << s.own };
    let start = theme.center.wrapping_add(r.below(3) << granule_exponent(theme.granule));
    t.first = start.wrapping_add(r.pick(&[0, 0, 1, 0xFFF, 0x3000]));
    t.last = t.first.saturating_add(r.pick(&[0, 0xFFF, 0x1FFF, 0x3FFF, 0xFFFF, 0x3_FFFF]));
    let addresses_of_one_range = !has_asids(&t) && !r.one_in(20);
    if addresses_of_one_range {
        t.first &= (1 << 55) - 1;
        t.last &= (1 << 55) - 1;
    }
    if r.one_in(60) {
        let bad = r.pick(&[0, 2, 4, 1 << 16, u64::MAX]);
        let field = r.below(6);
        *[&mut t.regime, &mut t.ns, &mut t.granule, &mut t.asid, &mut t.processors, &mut t.leaves][field as usize] = bad;
    }
    t
}

/// A table of entries about what the steps drop, with empty and senseless slots among them.
pub fn table(r: &mut Random, case: &Case) -> Vec<u64> {
    let done: Vec<&[u64]> = case.list.chunks_exact(3).filter(|step| is_done(&case.state, step)).collect();
    let mut table = vec![0; 3 * r.below(12) as usize];
    for slot in table.chunks_exact_mut(3) {
        if !done.is_empty() && !r.one_in(8) {
            let step = done[r.below(done.len() as u64) as usize];
            plain::insert(slot, &entry_about(r, case, step), r.next());
        }
        if r.one_in(10) {
            slot[r.below(3) as usize] ^= 1 << r.below(64);
        }
    }
    table
}

fn is_done(state: &State, step: &[u64]) -> bool {
    plain::execute(&mut [], state, step[0], step[1], step[2]).0 == 0
}

/// A leaf that the step drops, moved to another kind, ASID, processor or place near by, and now and then changed in what makes it somebody else's.
fn entry_about(r: &mut Random, case: &Case, step: &[u64]) -> Entry {
    let mut e = hit_by(&case.state, &case.target, step);
    if r.one_in(2) {
        e.leaf = u64::from(!r.one_in(3));
        e.level = if e.leaf == 1 { 1 + r.below(3) as i64 } else { r.below(4) as i64 - 1 };
    }
    if has_asids(&case.target) {
        e.asid = r.pick(&[step[1] >> 48, step[1] >> 48, 0, 3]);
        e.global = e.leaf & u64::from(r.one_in(4));
    }
    e.xs = r.below(2);
    e.wide ^= u64::from(r.one_in(4));
    e.processor = if r.one_in(3) { r.below(8) } else { e.processor };
    if r.one_in(4) {
        change(r, &mut e);
    }
    let moved = e.base.wrapping_add(r.pick(&[0, 0, 0, 1, 2, 16]) << granule_exponent(e.granule));
    e.base = span(e.wide, e.granule, e.level).map_or(moved, |span| moved / span * span);
    e
}

/// One field of the company or the granule.
fn change(r: &mut Random, e: &mut Entry) {
    match r.below(6) {
        0 => e.regime = r.below(4),
        1 => e.security = r.below(4),
        2 => e.vmid = r.pick(&[0, 7, 8, 0xFFFF]),
        3 => e.stage2 ^= 1,
        4 => e.ns ^= 1,
        _ => e.granule = 1 + r.below(3),
    }
}
