//! The raw records against the header's: sizes, alignments and places of fields, as a C program printed them (`include/tests/layout.c`).
use chickadoor::raw;
use std::fmt::Write;
use std::mem::{align_of, size_of, size_of_val};

/// The lines about a record, as the C program writes them. The fields are told in the order of the header.
macro_rules! layout {
    ($($name:literal $record:ident { $($($field:ident).+),* })*) => {{
        let mut text = String::new();
        $({
            let record = raw::$record::default();
            let start = &record as *const raw::$record as usize;
            writeln!(text, "{}: {} bytes, aligned to {}", $name, size_of::<raw::$record>(), align_of::<raw::$record>()).unwrap();
            $(
                let field = &record.$($field).+;
                let at = field as *const _ as usize - start;
                writeln!(text, "    {} at {}, {} bytes", [$(stringify!($field)),+].join("."), at, size_of_val(field)).unwrap();
            )*
        })*
        text
    }};
}

#[test]
fn records_lie_as_in_the_header() {
    let text = layout! {
        "state" State {
            present.el2, present.el3,
            features.tlbirange, features.tlbios, features.d128, features.xs, features.lpa2, features.rme, features.sel2, features.fgt, features.hcx,
            scr.ns, scr.nse, scr.eel2, scr.fgten, scr.hxen,
            hcr.e2h, hcr.tge, hcr.ttlb, hcr.ttlbis, hcr.ttlbos, hcr.nv,
            hcrx.fnxs, hcrx.fgtnxs,
            traps.rvae1.local, traps.rvae1.inner, traps.rvae1.outer,
            traps.rvaae1.local, traps.rvaae1.inner, traps.rvaae1.outer,
            traps.rvale1.local, traps.rvale1.inner, traps.rvale1.outer,
            traps.rvaale1.local, traps.rvaale1.inner, traps.rvaale1.outer,
            ds.el1, ds.el2, ds.el3, ds.stage2,
            el, vmid,
            board.own, board.count, board.inner, board.outer
        }
        "entry" Entry {
            processor,
            company.regime, company.security, company.vmid, company.stage2, company.ns,
            asid, global, wide, granule, level, leaf, xs, base
        }
        "target" Target {
            company.regime, company.security, company.vmid, company.stage2, company.ns,
            wide, granule, one, asid, leaves, processors, first, last
        }
        "operation" Operation { name, share, nxs, tlbip, rt }
        "told" Told { tlbip, form, lpa2, unit64k }
        "fields" Fields { asid, ns, tg, scale, num, ttl, base }
        "inserted" Inserted { slot }
        "found" Found { slot, output, examined }
        "slot" Slot { entry, output }
        "executed" Executed { dropped, trap }
        "ran" Ran { dropped, step }
        "judged" Judged { survivor, step }
        "words" Words { xt, xt2 }
        "built" Built { word }
        "listed" Listed { used, written }
        "tailed" Tailed { written }
    };
    assert_eq!(text, include_str!("../../include/tests/layout.txt"));
}
