//! The listing: a line for each operation in machine code, and the line about the bytes left over.

use super::words::{read, Name, Parts, Share};
use crate::records::{Listed, Tailed};

/// Room for the longest line.
const LINE: usize = 52;

/// A line that is being put together.
struct Line {
    bytes: [u8; LINE],
    used: usize,
}

impl Line {
    fn put(&mut self, text: &[u8]) {
        self.bytes[self.used..self.used + text.len()].copy_from_slice(text);
        self.used += text.len();
    }

    fn put_number(&mut self, mut number: u64) {
        let mut digits = [0; 20];
        let mut first = digits.len();
        loop {
            first -= 1;
            digits[first] = b'0' + (number % 10) as u8;
            number /= 10;
            if number == 0 {
                return self.put(&digits[first..]);
            }
        }
    }

    fn put_register(&mut self, register: u8) {
        if register == 31 {
            self.put(b", XZR");
        } else {
            self.put(b", X");
            self.put_number(u64::from(register));
        }
    }

    fn put_operation(&mut self, offset: u64, op: &Parts) {
        self.put_number(offset);
        self.put(if op.tlbip { b" TLBIP " } else { b" TLBI " });
        self.put(name_text(op.name));
        self.put(match op.share {
            Share::Local => b"",
            Share::Inner => b"IS",
            Share::Outer => b"OS",
        });
        self.put(if op.nxs { b"NXS" } else { b"" });
        self.put_register(op.rt);
        if op.tlbip {
            self.put_register((op.rt + 1).min(31));
        }
        self.put(b"\n");
    }

    /// Copies the line to the front of a text that has room for it, and tells its length.
    fn copy_to(&self, text: &mut [u8]) -> Option<usize> {
        text.get_mut(..self.used)?.copy_from_slice(&self.bytes[..self.used]);
        Some(self.used)
    }
}

fn name_text(name: Name) -> &'static [u8] {
    match name {
        Name::Rvae1 => b"RVAE1",
        Name::Rvaae1 => b"RVAAE1",
        Name::Rvale1 => b"RVALE1",
        Name::Rvaale1 => b"RVAALE1",
        Name::Rvae2 => b"RVAE2",
        Name::Rvale2 => b"RVALE2",
        Name::Rvae3 => b"RVAE3",
        Name::Rvale3 => b"RVALE3",
        Name::Ripas2e1 => b"RIPAS2E1",
        Name::Ripas2le1 => b"RIPAS2LE1",
    }
}

pub fn list(code: &[u8], at: u64, text: &mut [u8], out: &mut Listed) {
    *out = Listed::default();
    let mut written = 0;
    for bytes in code.chunks_exact(4) {
        let word = u32::from_le_bytes([bytes[0], bytes[1], bytes[2], bytes[3]]);
        if let Some(op) = read(u64::from(word)).filter(|op| !op.is_odd_pair()) {
            let mut line = Line { bytes: [0; LINE], used: 0 };
            line.put_operation(at.wrapping_add(out.used), &op);
            match line.copy_to(&mut text[written..]) {
                Some(length) => written += length,
                None => break,
            }
        }
        out.used += 4;
    }
    out.written = written as u64;
}

pub fn tail(left: usize, text: &mut [u8], out: &mut Tailed) {
    *out = Tailed::default();
    if left == 0 {
        return;
    }
    let mut line = Line { bytes: [0; LINE], used: 0 };
    line.put(b"tail ");
    line.put_number(left as u64);
    line.put(b"\n");
    out.written = line.copy_to(text).unwrap_or(0) as u64;
}
