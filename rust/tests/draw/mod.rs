//! Inputs drawn from a seed: mostly sensible and close to each other, so that rules decide, and now and then damaged.
use crate::plain::record::{Entry, Fields, Operation, State, Target, Told};

pub struct Draw(u64);

impl Draw {
    pub fn new(seed: u64) -> Self {
        Draw(seed.wrapping_mul(0x9e37_79b9_7f4a_7c15) | 1)
    }

    pub fn next(&mut self) -> u64 {
        self.0 ^= self.0 << 13;
        self.0 ^= self.0 >> 7;
        self.0 ^= self.0 << 17;
        self.0.wrapping_mul(0x2545_f491_4f6c_dd1d)
    }

    pub fn below(&mut self, n: u64) -> u64 {
        (self.next() >> 33) % n
    }

    pub fn once_in(&mut self, n: u64) -> bool {
        self.below(n) == 0
    }

    fn flag(&mut self) -> u8 {
        self.below(2) as u8
    }

    /// 1 but for once in eight times.
    fn mostly(&mut self) -> u8 {
        !self.once_in(8) as u8
    }

    fn pick<T: Copy>(&mut self, from: &[T]) -> T {
        from[self.below(from.len() as u64) as usize]
    }
}

const VMIDS: [u16; 3] = [0, 1, 7];
const ASIDS: [u64; 4] = [0, 1, 2, 0xffff];

pub fn state(d: &mut Draw) -> State {
    let el3 = d.flag();
    let rme = el3 * d.flag();
    let scr_ns = d.mostly();
    let count = 1 + d.below(8) as u8;
    let mut state = State {
        el: d.pick(&[1, 1, 1, 2, 2, 3, 3, 0]),
        el2: d.mostly(),
        el3,
        tlbirange: d.mostly(),
        tlbios: d.mostly(),
        d128: d.mostly(),
        xs: d.mostly(),
        lpa2: d.flag(),
        rme,
        sel2: d.flag(),
        fgt: d.flag(),
        hcx: d.flag(),
        scr_ns,
        scr_nse: scr_ns * d.flag(),
        scr_eel2: d.flag(),
        scr_fgten: d.flag(),
        scr_hxen: d.flag(),
        hcr_e2h: d.flag(),
        hcr_tge: d.flag(),
        hcr_ttlb: d.once_in(8) as u8,
        hcr_ttlbis: d.once_in(8) as u8,
        hcr_ttlbos: d.once_in(8) as u8,
        hcr_nv: d.flag(),
        hcrx_fnxs: d.flag(),
        hcrx_fgtnxs: d.flag(),
        ds_el1: d.flag(),
        ds_el2: d.flag(),
        ds_el3: d.flag(),
        ds_stage2: d.flag(),
        own: d.below(count.into()) as u8,
        count,
        vmid: d.pick(&VMIDS),
        ..State::default()
    };
    traps(d, &mut state);
    for p in 0..8 {
        state.inner[p] = d.below(4) as u8;
        state.outer[p] = state.inner[p] / 2;
    }
    if d.once_in(12) {
        damage(d, &mut state);
    }
    state
}

fn traps(d: &mut Draw, state: &mut State) {
    for flag in [
        &mut state.trap_rvae1,
        &mut state.trap_rvae1is,
        &mut state.trap_rvae1os,
        &mut state.trap_rvaae1,
        &mut state.trap_rvaae1is,
        &mut state.trap_rvaae1os,
        &mut state.trap_rvale1,
        &mut state.trap_rvale1is,
        &mut state.trap_rvale1os,
        &mut state.trap_rvaale1,
        &mut state.trap_rvaale1is,
        &mut state.trap_rvaale1os,
    ] {
        *flag = d.once_in(4) as u8;
    }
}

/// One byte with a value of its own: a flag that is none, a level or a count too high, a domain of another kind.
fn damage(d: &mut Draw, state: &mut State) {
    let value = d.pick(&[2, 3, 4, 8, 9, 128, 255]);
    let mut bytes = bytes(state);
    let place = d.below(bytes.len() as u64) as usize;
    *bytes[place] = value;
}

/// Everything in a state that is a byte.
fn bytes(s: &mut State) -> Vec<&mut u8> {
    let mut bytes = vec![
        &mut s.el,
        &mut s.el2,
        &mut s.el3,
        &mut s.tlbirange,
        &mut s.tlbios,
        &mut s.d128,
        &mut s.xs,
        &mut s.lpa2,
        &mut s.rme,
        &mut s.sel2,
        &mut s.fgt,
        &mut s.hcx,
        &mut s.scr_ns,
        &mut s.scr_nse,
        &mut s.scr_eel2,
        &mut s.scr_fgten,
        &mut s.scr_hxen,
        &mut s.hcr_e2h,
        &mut s.hcr_tge,
        &mut s.hcr_ttlb,
        &mut s.hcr_ttlbis,
        &mut s.hcr_ttlbos,
        &mut s.hcr_nv,
        &mut s.hcrx_fnxs,
        &mut s.hcrx_fgtnxs,
        &mut s.trap_rvae1,
        &mut s.trap_rvae1is,
        &mut s.trap_rvae1os,
        &mut s.trap_rvaae1,
        &mut s.trap_rvaae1is,
        &mut s.trap_rvaae1os,
        &mut s.trap_rvale1,
        &mut s.trap_rvale1is,
        &mut s.trap_rvale1os,
        &mut s.trap_rvaale1,
        &mut s.trap_rvaale1is,
        &mut s.trap_rvaale1os,
        &mut s.ds_el1,
        &mut s.ds_el2,
        &mut s.ds_el3,
        &mut s.ds_stage2,
        &mut s.own,
        &mut s.count,
    ];
    bytes.extend(s.inner.iter_mut().chain(s.outer.iter_mut()));
    bytes
}

pub fn operation(d: &mut Draw) -> Operation {
    let mut operation = Operation {
        name: d.below(10),
        share: d.below(3),
        nxs: d.once_in(4) as u64,
        tlbip: d.flag().into(),
        rt: d.pick(&[0, 0, 0, 2, 4, 30, 31, 5]),
    };
    if d.once_in(16) {
        let value = d.pick(&[2, 3, 10, 32, u64::MAX]);
        match d.below(5) {
            0 => operation.name = value,
            1 => operation.share = value,
            2 => operation.nxs = value,
            3 => operation.tlbip = value,
            _ => operation.rt = value,
        }
    }
    operation
}

pub fn told(d: &mut Draw) -> Told {
    let mut told = Told { tlbip: d.flag().into(), form: d.below(5), lpa2: d.flag().into(), unit64k: d.flag().into() };
    if d.once_in(16) {
        let value = d.pick(&[2, 5, 255, u64::MAX]);
        match d.below(4) {
            0 => told.tlbip = value,
            1 => told.form = value,
            2 => told.lpa2 = value,
            _ => told.unit64k = value,
        }
    }
    told
}

/// Where addresses lie: low, in the middle, and about 2^55, 2^56 and 2^64, where halves end.
const REGIONS: [u64; 9] = [
    0,
    0x4000_0000,
    0x4000_0000,
    0x0040_0000_0000_0000,
    0x007f_ffff_c000_0000,
    0x0080_0000_0000_0000,
    0x00ff_ffff_c000_0000,
    0xff80_0000_0000_0000,
    0xffff_ffff_c000_0000,
];

/// An address at or near the start of a region that entries, ranges and targets share.
pub fn address(d: &mut Draw) -> u64 {
    let region = d.pick(&REGIONS);
    let step = d.pick(&[12u64, 14, 16, 20, 21, 24, 25, 28, 30, 36]);
    region + (d.below(8) << step) % 0x4000_0000
}

pub fn fields(d: &mut Draw) -> Fields {
    let mut fields = Fields {
        asid: d.pick(&ASIDS),
        ns: d.flag().into(),
        tg: 1 + d.below(3),
        scale: d.pick(&[0, 0, 0, 1, 2, 3]),
        num: d.pick(&[0, 0, 1, 3, 31]),
        ttl: d.pick(&[0, 0, 1, 2, 3]),
        base: address(d),
    };
    if d.once_in(8) {
        let value = d.next();
        match d.below(7) {
            0 => fields.asid = value,
            1 => fields.ns = value % 3,
            2 => fields.tg = value % 6,
            3 => fields.scale = value % 6,
            4 => fields.num = value % 40,
            5 => fields.ttl = value % 6,
            _ => fields.base = value,
        }
    }
    fields
}

pub fn entry(d: &mut Draw, state: &State) -> Entry {
    let regime = d.pick(&[0, 0, 0, 1, 2, 3]);
    let stage2 = (regime == 0 && d.once_in(3)) as u64;
    let security = if regime == 3 { d.pick(&[0, 3]) } else { d.pick(&[0, 1, 1, 2]) };
    let asids = regime < 2 && stage2 == 0;
    let leaf = d.mostly() as u64;
    let mut entry = Entry {
        processor: d.pick(&[state.own as u64, state.own as u64, 0, 1, 2, 7]),
        regime,
        security,
        vmid: if regime == 0 { d.pick(&[state.vmid, state.vmid, 0, 1]).into() } else { 0 },
        stage2,
        ns: (stage2 == 1 && security == 0) as u64 * d.below(2),
        asid: asids as u64 * d.pick(&ASIDS),
        global: (asids && leaf == 1) as u64 * d.once_in(4) as u64,
        wide: d.flag().into(),
        granule: 1 + d.below(3),
        level: if leaf == 1 { d.pick(&[3, 3, 2, 1]) } else { d.pick(&[2, 1, 0, -1]) },
        leaf,
        xs: d.flag().into(),
        base: address(d),
    };
    let exponent = d.pick(&[12u64, 16, 21, 30, 36]);
    entry.base &= !((1u64 << exponent) - 1);
    if d.once_in(10) {
        damage_entry(d, &mut entry);
    }
    entry
}

fn damage_entry(d: &mut Draw, entry: &mut Entry) {
    let value = d.pick(&[2, 3, 4, 8, 0x1_0000, u64::MAX]);
    match d.below(14) {
        0 => entry.processor = value,
        1 => entry.regime = value,
        2 => entry.security = value,
        3 => entry.vmid = value,
        4 => entry.stage2 = value,
        5 => entry.ns = value,
        6 => entry.asid = value,
        7 => entry.global = value,
        8 => entry.wide = value,
        9 => entry.granule = value,
        10 => entry.level = value as i64,
        11 => entry.leaf = value,
        12 => entry.xs = value,
        _ => entry.base ^= 1 << d.below(64),
    }
}

pub fn target(d: &mut Draw, state: &State) -> Target {
    let like = entry(d, state);
    let first = address(d);
    let mut target = Target {
        regime: like.regime,
        security: like.security,
        vmid: like.vmid,
        stage2: like.stage2,
        ns: like.ns,
        wide: like.wide,
        granule: like.granule,
        one: (like.regime < 2 && like.stage2 == 0) as u64 * d.below(2),
        asid: like.asid,
        leaves: d.flag().into(),
        processors: d.pick(&[1 << (state.own % 8), 1 << (state.own % 8), (1 << (state.count % 9)) - 1, 1, 3, 0x80]),
        first,
        last: first.saturating_add(d.pick(&[0, 0xfff, 0x1fff, 0x3fff, 0x1f_ffff, 0x3fff_ffff])),
    };
    if d.once_in(12) {
        let value = d.pick(&[2, 3, 4, 0x100, 0x1_0000, u64::MAX]);
        match d.below(13) {
            0 => target.regime = value,
            1 => target.security = value,
            2 => target.vmid = value,
            3 => target.stage2 = value,
            4 => target.ns = value,
            5 => target.wide = value,
            6 => target.granule = value,
            7 => target.one = value,
            8 => target.asid = value,
            9 => target.leaves = value,
            10 => target.processors = value,
            11 => target.first = value,
            _ => target.last = value,
        }
    }
    target
}

/// The register words of an operation: an operand near the others, once in a while any bits.
pub fn registers(d: &mut Draw) -> (u64, u64) {
    if d.once_in(10) {
        return (d.next(), d.next());
    }
    let tg = if d.once_in(20) { 0 } else { 1 + d.below(3) };
    let scale = d.pick(&[0u64, 0, 0, 1, 2, 3]);
    let num = d.pick(&[0u64, 0, 1, 3, 31]);
    let ttl = d.pick(&[0u64, 0, 0, 1, 2, 3]);
    let top = d.pick(&[0u64, 1, 2, 0xffff, 0x8000]);
    let base = address(d);
    let unit = d.pick(&[12u64, 14, 16]);
    let low = if d.flag() == 1 { (base >> unit) & 0x1f_ffff_ffff } else { 0 };
    (top << 48 | tg << 46 | scale << 44 | num << 39 | ttl << 37 | low, base >> 12 & 0xfff_ffff_ffff)
}
