//! The plain implementation against the documents: the marked examples of the requirements (01), and item by item the inputs that tell their readings apart
//! (READINGS, the notes behind docs/DECISIONS.md). Every expected value is one that the document states or that follows from the sentence quoted beside it.

mod examples;
mod plain;
