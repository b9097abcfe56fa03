//! The listing program's text: one line for each operation in A64 code, and the line for the bytes left over.

use super::record::{Listed, Operation};
use super::words::{odd_pair, operation, IS, LOCAL, RIPAS2E1, RVAAE1, RVAALE1, RVAE1, RVAE2, RVAE3, RVALE1, RVALE2, RVALE3};

/// The lines of the whole words of `code`, whose first byte has the offset `at`, up to the first that does not fit into `room` bytes.
pub fn list(code: &[u8], at: u64, room: usize) -> (Listed, Vec<u8>) {
    let mut text = Vec::new();
    let mut used = 0u64;
    for bytes in code.chunks_exact(4) {
        let word = u32::from_le_bytes([bytes[0], bytes[1], bytes[2], bytes[3]]);
        if let Some(op) = listed(word) {
            let before = text.len();
            write_line(&mut text, at.wrapping_add(used), &op);
            if text.len() > room {
                text.truncate(before);
                break;
            }
        }
        used += 4;
    }
    (Listed { used, written: text.len() as u64 }, text)
}

/// "No tail line if none."
pub fn tail(left: usize, room: usize) -> Vec<u8> {
    let line = format!("tail {}\n", left).into_bytes();
    if left == 0 || line.len() > room {
        Vec::new()
    } else {
        line
    }
}

/// "SYSP with odd Rt below 31 isn't listed."
fn listed(word: u32) -> Option<Operation> {
    operation(u64::from(word)).filter(|op| !odd_pair(op))
}

fn write_line(text: &mut Vec<u8>, offset: u64, op: &Operation) {
    text.extend_from_slice(offset.to_string().as_bytes());
    text.extend_from_slice(if op.tlbip == 1 { b" TLBIP " } else { b" TLBI " });
    text.extend_from_slice(name(op.name).as_bytes());
    text.extend_from_slice(share(op.share).as_bytes());
    text.extend_from_slice(if op.nxs == 1 { b"NXS" } else { b"" });
    write_register(text, op.rt);
    if op.tlbip == 1 {
        // "Rt 31 twice for TLBIP"; after X30 comes register 31, which is XZR too.
        write_register(text, (op.rt + 1).min(31));
    }
    text.push(b'\n');
}

fn write_register(text: &mut Vec<u8>, register: u64) {
    text.extend_from_slice(b", X");
    if register == 31 {
        text.extend_from_slice(b"ZR");
    } else {
        text.extend_from_slice(register.to_string().as_bytes());
    }
}

fn name(name: u64) -> &'static str {
    match name {
        RVAE1 => "RVAE1",
        RVAAE1 => "RVAAE1",
        RVALE1 => "RVALE1",
        RVAALE1 => "RVAALE1",
        RVAE2 => "RVAE2",
        RVALE2 => "RVALE2",
        RVAE3 => "RVAE3",
        RVALE3 => "RVALE3",
        RIPAS2E1 => "RIPAS2E1",
        _ => "RIPAS2LE1",
    }
}

fn share(share: u64) -> &'static str {
    match share {
        LOCAL => "",
        IS => "IS",
        _ => "OS",
    }
}
