//! A reference of document 01: its leaf rules L1 to L9, its calls with their
//! refusals, and its script program, over plain sorted vectors.
//!
//! It is written from document 01 alone, to be held beside it. Leaves keep
//! whole keys; how bytes lie in the arena has no part in the calls of `index`, so
//! refusal 2 (damaged) cannot occur there.
//!
//! Beside the calls stand the packed words and W with the layout rule G: which
//! headers and buffers hold an index, and which leaf list. `opened` has the
//! reading calls on such buffers, with the places of what they find. `lists`,
//! `damage` and `cases` make inputs for any program that has to tell.

#![forbid(unsafe_code)]

pub mod buffers;
pub mod cases;
pub mod checks;
pub mod damage;
pub mod index;
pub mod layout;
pub mod leaves;
pub mod lists;
pub mod opened;
pub mod random;
pub mod range;
pub mod refusal;
pub mod script;
pub mod w;
pub mod words;
