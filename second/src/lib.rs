//! Numbers kept in write-once cells by the position modulation code, written
//! from the words of documents 01 and 02 and, where they refer to it, the paper
//! 003.
//!
//! Every rule is the plain definition over whole numbers of any size, so that
//! its answers can be held against those of a program built another way.

pub mod answers;
pub mod cells;
pub mod comparing;
pub mod counting;
pub mod dealing;
pub mod dump;
pub mod field;
pub mod hex;
pub mod judging;
pub mod layout;
pub mod listing;
pub mod many;
pub mod newdump;
pub mod pairs;
pub mod protocol;
pub mod refusal;
pub mod resuming;
pub mod sample;
pub mod storing;
pub mod stream;
pub mod values;
pub mod whole;
