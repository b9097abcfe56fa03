//! Bytes before the program's own code. They move it, and the library behind it, over the lines of the cache: how a loop lies across them is
//! chance, and may double its time.

use std::arch::global_asm;

global_asm!(concat!(".section .text.placement,\"axR\"\n.fill ", env!("PLACEMENT"), ", 1, 0\n.text"));
