//! The records of `include/chickadoor.h`, field by field.

#[repr(C)]
#[derive(Clone, Copy, Debug, Default)]
pub struct Present {
    pub el2: u8,
    pub el3: u8,
}

#[repr(C)]
#[derive(Clone, Copy, Debug, Default)]
pub struct Features {
    pub tlbirange: u8,
    pub tlbios: u8,
    pub d128: u8,
    pub xs: u8,
    pub lpa2: u8,
    pub rme: u8,
    pub sel2: u8,
    pub fgt: u8,
    pub hcx: u8,
}

#[repr(C)]
#[derive(Clone, Copy, Debug, Default)]
pub struct Scr {
    pub ns: u8,
    pub nse: u8,
    pub eel2: u8,
    pub fgten: u8,
    pub hxen: u8,
}

#[repr(C)]
#[derive(Clone, Copy, Debug, Default)]
pub struct Hcr {
    pub e2h: u8,
    pub tge: u8,
    pub ttlb: u8,
    pub ttlbis: u8,
    pub ttlbos: u8,
    pub nv: u8,
}

#[repr(C)]
#[derive(Clone, Copy, Debug, Default)]
pub struct Hcrx {
    pub fnxs: u8,
    pub fgtnxs: u8,
}

#[repr(C)]
#[derive(Clone, Copy, Debug, Default)]
pub struct Flags {
    pub local: u8,
    pub inner: u8,
    pub outer: u8,
}

#[repr(C)]
#[derive(Clone, Copy, Debug, Default)]
pub struct Traps {
    pub rvae1: Flags,
    pub rvaae1: Flags,
    pub rvale1: Flags,
    pub rvaale1: Flags,
}

#[repr(C)]
#[derive(Clone, Copy, Debug, Default)]
pub struct Ds {
    pub el1: u8,
    pub el2: u8,
    pub el3: u8,
    pub stage2: u8,
}

#[repr(C)]
#[derive(Clone, Copy, Debug, Default)]
pub struct Board {
    pub own: u8,
    pub count: u8,
    pub inner: [u8; 8],
    pub outer: [u8; 8],
}

#[repr(C)]
#[derive(Clone, Copy, Debug, Default)]
pub struct State {
    pub present: Present,
    pub features: Features,
    pub scr: Scr,
    pub hcr: Hcr,
    pub hcrx: Hcrx,
    pub traps: Traps,
    pub ds: Ds,
    pub el: u8,
    pub vmid: u16,
    pub board: Board,
}

#[repr(C)]
#[derive(Clone, Copy, Debug, Default)]
pub struct Company {
    pub regime: u64,
    pub security: u64,
    pub vmid: u64,
    pub stage2: u64,
    pub ns: u64,
}

#[repr(C)]
#[derive(Clone, Copy, Debug, Default)]
pub struct Entry {
    pub processor: u64,
    pub company: Company,
    pub asid: u64,
    pub global: u64,
    pub wide: u64,
    pub granule: u64,
    pub level: i64,
    pub leaf: u64,
    pub xs: u64,
    pub base: u64,
}

#[repr(C)]
#[derive(Clone, Copy, Debug, Default)]
pub struct Target {
    pub company: Company,
    pub wide: u64,
    pub granule: u64,
    pub one: u64,
    pub asid: u64,
    pub leaves: u64,
    pub processors: u64,
    pub first: u64,
    pub last: u64,
}

#[repr(C)]
#[derive(Clone, Copy, Debug, Default)]
pub struct Operation {
    pub name: u64,
    pub share: u64,
    pub nxs: u64,
    pub tlbip: u64,
    pub rt: u64,
}

#[repr(C)]
#[derive(Clone, Copy, Debug, Default)]
pub struct Told {
    pub tlbip: u64,
    pub form: u64,
    pub lpa2: u64,
    pub unit64k: u64,
}

#[repr(C)]
#[derive(Clone, Copy, Debug, Default)]
pub struct Fields {
    pub asid: u64,
    pub ns: u64,
    pub tg: u64,
    pub scale: u64,
    pub num: u64,
    pub ttl: u64,
    pub base: u64,
}

#[repr(C)]
#[derive(Clone, Copy, Debug, Default)]
pub struct Words {
    pub xt: u64,
    pub xt2: u64,
}

#[repr(C)]
#[derive(Clone, Copy, Debug, Default)]
pub struct Built {
    pub word: u64,
}

#[repr(C)]
#[derive(Clone, Copy, Debug, Default)]
pub struct Inserted {
    pub slot: u64,
}

#[repr(C)]
#[derive(Clone, Copy, Debug, Default)]
pub struct Found {
    pub slot: u64,
    pub output: u64,
    pub examined: u64,
}

#[repr(C)]
#[derive(Clone, Copy, Debug, Default)]
pub struct Slot {
    pub entry: Entry,
    pub output: u64,
}

#[repr(C)]
#[derive(Clone, Copy, Debug, Default)]
pub struct Executed {
    pub dropped: u64,
    pub trap: u64,
}

#[repr(C)]
#[derive(Clone, Copy, Debug, Default)]
pub struct Ran {
    pub dropped: u64,
    pub step: u64,
}

#[repr(C)]
#[derive(Clone, Copy, Debug, Default)]
pub struct Judged {
    pub survivor: Entry,
    pub step: u64,
}

#[repr(C)]
#[derive(Clone, Copy, Debug, Default)]
pub struct Listed {
    pub used: u64,
    pub written: u64,
}

#[repr(C)]
#[derive(Clone, Copy, Debug, Default)]
pub struct Tailed {
    pub written: u64,
}
