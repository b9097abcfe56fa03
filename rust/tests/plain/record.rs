//! What the plain calls are given and hand out: flat records of plain integers, so that a test can give any value. They are its own, and nothing of
//! the library stands behind them.

/// The processor state. Flags are 0 or 1; any other value makes the state bad (answer 2), like an exception level over 3.
#[derive(Clone, Copy, Debug, Default, PartialEq, Eq)]
pub struct State {
    pub el: u8,
    pub el2: u8,
    pub el3: u8,
    pub tlbirange: u8,
    pub tlbios: u8,
    pub d128: u8,
    pub xs: u8,
    pub lpa2: u8,
    pub rme: u8,
    pub sel2: u8,
    pub fgt: u8,
    pub hcx: u8,
    pub scr_ns: u8,
    pub scr_nse: u8,
    pub scr_eel2: u8,
    pub scr_fgten: u8,
    pub scr_hxen: u8,
    pub hcr_e2h: u8,
    pub hcr_tge: u8,
    pub hcr_ttlb: u8,
    pub hcr_ttlbis: u8,
    pub hcr_ttlbos: u8,
    pub hcr_nv: u8,
    pub hcrx_fnxs: u8,
    pub hcrx_fgtnxs: u8,
    pub trap_rvae1: u8,
    pub trap_rvae1is: u8,
    pub trap_rvae1os: u8,
    pub trap_rvaae1: u8,
    pub trap_rvaae1is: u8,
    pub trap_rvaae1os: u8,
    pub trap_rvale1: u8,
    pub trap_rvale1is: u8,
    pub trap_rvale1os: u8,
    pub trap_rvaale1: u8,
    pub trap_rvaale1is: u8,
    pub trap_rvaale1os: u8,
    pub ds_el1: u8,
    pub ds_el2: u8,
    pub ds_el3: u8,
    pub ds_stage2: u8,
    pub own: u8,
    pub count: u8,
    pub inner: [u8; 8],
    pub outer: [u8; 8],
    pub vmid: u16,
}

/// An entry: regime 0 EL1&0, 1 EL2&0, 2 EL2, 3 EL3; security 0 Secure, 1 Non-secure, 2 Realm, 3 Root; granule 1 4K, 2 16K, 3 64K;
/// `stage2`, `ns`, `global`, `wide` (128-bit), `leaf` and `xs` are 0 or 1; level -1 to 3. Any other value makes it illegal (answer 8).
#[derive(Clone, Copy, Debug, Default, PartialEq, Eq)]
pub struct Entry {
    pub processor: u64,
    pub regime: u64,
    pub security: u64,
    pub vmid: u64,
    pub stage2: u64,
    pub ns: u64,
    pub asid: u64,
    pub global: u64,
    pub wide: u64,
    pub granule: u64,
    pub level: i64,
    pub leaf: u64,
    pub xs: u64,
    pub base: u64,
}

/// A target: `one` is 1 where only the ASID `asid` is asked for; `leaves` 1 where only leaves are; `processors` has a bit for each processor.
#[derive(Clone, Copy, Debug, Default, PartialEq, Eq)]
pub struct Target {
    pub regime: u64,
    pub security: u64,
    pub vmid: u64,
    pub stage2: u64,
    pub ns: u64,
    pub wide: u64,
    pub granule: u64,
    pub one: u64,
    pub asid: u64,
    pub leaves: u64,
    pub processors: u64,
    pub first: u64,
    pub last: u64,
}

/// An operation: name 0 RVAE1, 1 RVAAE1, 2 RVALE1, 3 RVAALE1, 4 RVAE2, 5 RVALE2, 6 RVAE3, 7 RVALE3, 8 RIPAS2E1, 9 RIPAS2LE1; share 0 local,
/// 1 IS, 2 OS; `nxs` and `tlbip` 0 or 1; Rt 0 to 31.
#[derive(Clone, Copy, Debug, Default, PartialEq, Eq)]
pub struct Operation {
    pub name: u64,
    pub share: u64,
    pub nxs: u64,
    pub tlbip: u64,
    pub rt: u64,
}

/// What the reader and the writer of an operand are told: form 0 two ranges with ASID, 1 two ranges without, 2 one range, 3 stage 2 with NS
/// (Secure), 4 stage 2 without; the others 0 or 1.
#[derive(Clone, Copy, Debug, Default, PartialEq, Eq)]
pub struct Told {
    pub tlbip: u64,
    pub form: u64,
    pub lpa2: u64,
    pub unit64k: u64,
}

/// An operand by its fields; the base is an address.
#[derive(Clone, Copy, Debug, Default, PartialEq, Eq)]
pub struct Fields {
    pub asid: u64,
    pub ns: u64,
    pub tg: u64,
    pub scale: u64,
    pub num: u64,
    pub ttl: u64,
    pub base: u64,
}

#[derive(Clone, Copy, Debug, Default, PartialEq, Eq)]
pub struct Words {
    pub xt: u64,
    pub xt2: u64,
}

#[derive(Clone, Copy, Debug, Default, PartialEq, Eq)]
pub struct Inserted {
    pub slot: u64,
}

#[derive(Clone, Copy, Debug, Default, PartialEq, Eq)]
pub struct Found {
    pub slot: u64,
    pub output: u64,
    pub examined: u64,
}

#[derive(Clone, Copy, Debug, Default, PartialEq, Eq)]
pub struct Executed {
    pub dropped: u64,
    pub trap: u64,
}

#[derive(Clone, Copy, Debug, Default, PartialEq, Eq)]
pub struct Ran {
    pub dropped: u64,
    pub step: u64,
}

#[derive(Clone, Copy, Debug, Default, PartialEq, Eq)]
pub struct Judged {
    pub step: u64,
    pub survivor: Entry,
}

#[derive(Clone, Copy, Debug, Default, PartialEq, Eq)]
pub struct Slot {
    pub entry: Entry,
    pub output: u64,
}

#[derive(Clone, Copy, Debug, Default, PartialEq, Eq)]
pub struct Listed {
    pub used: u64,
    pub written: u64,
}
