//! Inputs drawn at random, such that every answer comes up.

use super::Input;
use crate::calls::PLAIN;
use crate::inputs::Draw;
use crate::records::*;

pub fn input(draw: &mut Draw) -> Input {
    let state = state(draw);
    let common = Common::draw(draw, &state);
    let table = (0..draw.below(24)).flat_map(|_| slot(draw, &common)).collect();
    let told = Told { tlbip: flag(draw, 2), form: draw.below(6), lpa2: flag(draw, 2), unit64k: flag(draw, 4) };
    Input {
        table: of_bad_shape_at_times(draw, table),
        state,
        list: list(draw, &common),
        regime: if draw.one_in(2) { common.company.regime } else { draw.below(5) },
        asid: draw.below(3) as u16,
        address: common.address(draw),
        slot: draw.below(24) as usize,
        entry: entry(draw, &common),
        target: target(draw, &common),
        operation: Operation { name: draw.below(11), share: draw.below(4), nxs: flag(draw, 2), tlbip: flag(draw, 2), rt: draw.below(34) },
        told,
        fields: fields(draw, &common, &told),
        code: (0..16).flat_map(|_| (word(draw) as u32).to_le_bytes()).collect(),
        room: draw.below(800) as usize,
    }
}

/// What the parts of an input often have in common, so that they meet.
struct Common {
    company: Company,
    granule: u64,
    address: u64,
}

impl Common {
    /// Mostly the company of an operation in the state.
    fn draw(draw: &mut Draw, state: &State) -> Common {
        let mut company = company(draw);
        if !draw.one_in(4) {
            let realm = state.features.rme & state.scr.nse;
            let other = if state.present.el3 == 0 { 1 } else { state.scr.ns + (state.scr.ns & realm) };
            company.security = u64::from(if company.regime == 3 { 3 * state.features.rme } else { other });
            company.vmid = if company.regime == 0 { u64::from(state.vmid) } else { 0 };
            company.ns &= company.stage2 & u64::from(company.security == 0);
        }
        Common { company, granule: 1 + draw.below(3), address: address(draw) }
    }

    fn company(&self, draw: &mut Draw) -> Company {
        if draw.one_in(4) {
            company(draw)
        } else {
            self.company
        }
    }

    fn granule(&self, draw: &mut Draw) -> u64 {
        if draw.one_in(4) {
            draw.below(4)
        } else {
            self.granule
        }
    }

    fn address(&self, draw: &mut Draw) -> u64 {
        if draw.one_in(2) {
            address(draw)
        } else {
            self.address
        }
    }
}

/// 1 once in so many, and seldom a number that is no flag's.
fn flag(draw: &mut Draw, one_in: u64) -> u64 {
    if draw.one_in(1000) {
        2
    } else {
        u64::from(draw.one_in(one_in))
    }
}

fn byte(draw: &mut Draw, one_in: u64) -> u8 {
    flag(draw, one_in) as u8
}

/// 1 but for once in so many.
fn mostly(draw: &mut Draw, one_in: u64) -> u8 {
    u8::from(!draw.one_in(one_in))
}

fn flags(draw: &mut Draw) -> Flags {
    Flags { local: byte(draw, 16), inner: byte(draw, 16), outer: byte(draw, 16) }
}

/// Mostly one that is not bad.
fn state(draw: &mut Draw) -> State {
    let mut state = any_state(draw);
    if !draw.one_in(8) {
        state.present.el3 |= state.features.rme | u8::from(state.el == 3);
        state.present.el2 |= u8::from(state.el == 2);
        state.scr.ns |= state.features.rme & state.scr.nse | u8::from(state.el == 2);
    }
    state
}

fn any_state(draw: &mut Draw) -> State {
    State {
        el: if draw.one_in(60) { draw.word() as u8 } else { draw.below(4) as u8 },
        present: Present { el2: mostly(draw, 6), el3: mostly(draw, 3) },
        features: Features {
            tlbirange: mostly(draw, 16),
            tlbios: mostly(draw, 8),
            d128: mostly(draw, 4),
            xs: mostly(draw, 8),
            lpa2: byte(draw, 2),
            rme: byte(draw, 3),
            sel2: mostly(draw, 4),
            fgt: byte(draw, 2),
            hcx: byte(draw, 2),
        },
        scr: Scr { ns: mostly(draw, 3), nse: byte(draw, 3), eel2: mostly(draw, 3), fgten: byte(draw, 2), hxen: byte(draw, 2) },
        hcr: Hcr {
            e2h: byte(draw, 2),
            tge: byte(draw, 2),
            ttlb: byte(draw, 12),
            ttlbis: byte(draw, 12),
            ttlbos: byte(draw, 12),
            nv: byte(draw, 2),
        },
        hcrx: Hcrx { fnxs: byte(draw, 3), fgtnxs: byte(draw, 2) },
        traps: Traps { rvae1: flags(draw), rvaae1: flags(draw), rvale1: flags(draw), rvaale1: flags(draw) },
        ds: Ds { el1: byte(draw, 3), el2: byte(draw, 3), el3: byte(draw, 3), stage2: byte(draw, 3) },
        board: board(draw),
        vmid: 7 * draw.below(2) as u16,
    }
}

/// Inner domains lie in outer ones, but for seldom.
fn board(draw: &mut Draw) -> Board {
    let count = if draw.one_in(60) { draw.below(12) as u8 } else { 1 + draw.below(8) as u8 };
    let own = if draw.one_in(60) { count } else { draw.below(u64::from(count).max(1)) as u8 };
    let mut board = Board { own, count, inner: [0; 8], outer: [0; 8] };
    for p in 0..8 {
        board.inner[p] = draw.below(4) as u8;
        board.outer[p] = if draw.one_in(200) { 9 } else { board.inner[p] / 2 };
    }
    board
}

/// An address near a corner of the address space, or between.
fn address(draw: &mut Draw) -> u64 {
    let exponent = [12, 14, 16, 21, 25, 30, 36, 42, 48, 55][draw.below(10) as usize];
    let near = draw.below(4) << exponent;
    match draw.below(4) {
        0 => near.wrapping_neg(),
        1 => near.wrapping_neg() >> 8,
        _ => near,
    }
}

/// Mostly an operation.
fn word(draw: &mut Draw) -> u64 {
    let rt = if draw.one_in(4) { draw.below(32) } else { 0 };
    let operation =
        Operation { name: draw.below(10), share: draw.below(3), nxs: u64::from(draw.one_in(6)), tlbip: u64::from(draw.one_in(3)), rt };
    let mut out = Built::default();
    unsafe { (PLAIN.build)(&operation, &mut out) };
    match draw.below(16) {
        0 => draw.word(),
        1 => out.word ^ 1 << draw.below(64),
        _ => out.word,
    }
}

fn operand(draw: &mut Draw, common: &Common) -> [u64; 2] {
    let tg = common.granule(draw);
    let ttl = if draw.one_in(2) { 0 } else { draw.below(4) };
    let base = common.address(draw);
    let upper = draw.below(3) << 48 | u64::from(draw.one_in(4)) << 63;
    let xt = upper | tg << 46 | draw.below(4) << 44 | draw.below(32) << 39 | ttl << 37 | (base >> (10 + 2 * tg) & ((1 << 37) - 1));
    [xt, base >> 12]
}

/// Mostly one word again and again, so that whole lists are done.
fn list(draw: &mut Draw, common: &Common) -> Vec<u64> {
    let first = word(draw);
    let steps = draw.below(17);
    let mixed = draw.one_in(4);
    let mut step = || {
        let [xt, xt2] = operand(draw, common);
        [if mixed { word(draw) } else { first }, xt, xt2]
    };
    let list = (0..steps).flat_map(|_| step()).collect();
    of_bad_shape_at_times(draw, list)
}

fn of_bad_shape_at_times(draw: &mut Draw, mut words: Vec<u64>) -> Vec<u64> {
    if draw.one_in(40) {
        words.push(0);
    }
    if draw.one_in(400) {
        words.resize(6147, 0);
    }
    words
}

/// Mostly one that an entry can have.
fn company(draw: &mut Draw) -> Company {
    let stray = draw.one_in(8);
    let stage2 = flag(draw, 4);
    let regime = if stage2 == 1 && !stray { 0 } else { draw.below(4) };
    let security = if regime == 3 && !stray { 3 * draw.below(2) } else { draw.below(if stray { 4 } else { 3 }) };
    let vmid = if regime == 0 || stray { 7 * draw.below(2) } else { 0 };
    let ns = if stage2 == 1 && security == 0 || stray { flag(draw, 2) } else { 0 };
    Company { regime, security, vmid, stage2, ns }
}

fn entry(draw: &mut Draw, common: &Common) -> Entry {
    let leaf = flag(draw, 2);
    Entry {
        processor: if draw.one_in(40) { 8 } else { draw.below(8) },
        company: common.company(draw),
        asid: draw.below(3),
        global: flag(draw, 8),
        wide: flag(draw, 3),
        granule: common.granule(draw),
        level: if leaf == 1 { 1 + draw.below(3) as i64 } else { draw.below(5) as i64 - 1 },
        leaf,
        xs: flag(draw, 2),
        base: common.address(draw),
    }
}

/// An entry, perhaps of no sense, an empty slot, or one with a bit that is out of place.
fn slot(draw: &mut Draw, common: &Common) -> [u64; 3] {
    let e = entry(draw, common);
    if draw.one_in(8) {
        return [0; 3];
    }
    let c = &e.company;
    let company = 1 | c.regime << 4 | c.security << 6 | c.vmid << 8 | c.stage2 << 24 | c.ns << 25;
    let height = (3 - e.level) as u64;
    let place = e.granule << 26 | e.asid << 28 | e.global << 44 | e.wide << 45 | height << 46;
    let tag = company | place | e.leaf << 49 | e.xs << 50 | e.processor << 51;
    let stray = if draw.one_in(30) { 1 << draw.below(64) } else { 0 };
    [e.base, tag ^ stray, draw.word()]
}

/// Mostly a target that begins where the ranges of some steps do.
fn target(draw: &mut Draw, common: &Common) -> Target {
    let first = if draw.one_in(4) { common.address(draw) } else { common.address };
    let last = if draw.one_in(4) { common.address(draw) } else { first };
    let sets = if draw.one_in(2) { 1 } else { 16 };
    Target {
        company: common.company(draw),
        wide: flag(draw, 3),
        granule: common.granule(draw),
        one: flag(draw, 3),
        asid: draw.below(3),
        leaves: flag(draw, 2),
        processors: 1 + draw.below(sets),
        first,
        last: last | (0x1000 << draw.below(10)) - 1,
    }
}

/// Mostly what was read, so that much can be written.
fn fields(draw: &mut Draw, common: &Common, told: &Told) -> Fields {
    let [xt, xt2] = operand(draw, common);
    let mut fields = Fields::default();
    unsafe { (PLAIN.read_operand)(told, xt, xt2, &mut fields) };
    match draw.below(12) {
        0 => fields.asid = draw.below(70_000),
        1 => fields.ns = draw.below(3),
        2 => fields.tg = draw.below(5),
        3 => fields.scale = draw.below(5),
        4 => fields.num = draw.below(33),
        5 => fields.ttl = draw.below(5),
        6 => fields.base = address(draw),
        _ => {}
    }
    fields
}
