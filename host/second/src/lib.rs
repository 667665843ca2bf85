//! The second program: an independent model of the expandable filter.
//!
//! It is written from document 01 (the rules) alone, and from the Aleph
//! Filter paper (source 002) where document 01 is silent. The product is
//! compared with it: both run the same script of calls, and every answer,
//! record number and lent word has to agree.
//!
//! The model never shifts entries about. A table is a multiset (for each
//! address a sorted list of payloads), and its words are laid out afresh by
//! the carry formula of document 01 after each change. That is slow, and it is
//! meant to be: it leaves little room for a slip.
//!
//! The modules, from the bottom up:
//! - `numbers`: limits, load limit, extra bits;
//! - `payload`: payloads and slot words;
//! - `table`: the multiset, its layout and its decoding;
//! - `record`: the record, its places and the tests for number 2;
//! - `state`: the record with its lent words and the tests for number 3;
//! - `contents`: what a sound state decodes to;
//! - `calls`: the calls and their refusals;
//! - `script`: scripts of calls and the output expected from them;
//! - `cases`: the twelve cases of document 01;
//! - `random`, `writer`, `builder`, `lives`, `damage`, `adversarial`, `modes`: random
//!   scripts;
//! - `shrink`: the shortest part of a failing list.

pub mod adversarial;
pub mod builder;
pub mod calls;
pub mod cases;
pub mod contents;
pub mod damage;
pub mod lives;
pub mod modes;
pub mod numbers;
pub mod payload;
pub mod random;
pub mod record;
pub mod script;
pub mod shrink;
pub mod state;
pub mod table;
pub mod writer;

pub use calls::{
    audit, delete, double, insert, part, query, query_bytes, rejuvenate, settle, start, Answer,
};
pub use contents::Contents;
pub use record::{Place, Record};
pub use state::State;
pub use table::Table;
