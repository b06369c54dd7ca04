//! The engine beside an independent implementation of document 01, and of document 02's requests a to e, g and h.
//!
//! - `records`, `reference`: the records of either edition, a roll among them, the reader and the rows, literally;
//! - `decompose` over `flow`: the groups by minimum cuts and by a count over all sets, shares by a flow;
//! - `families`, `known`: lists and rolls; `damage`, `near`: what is done to them and to their plans;
//! - `lent`, `run`: calls with guard bytes, and the comparison;
//! - `convert`: lists and plans between the editions;
//! - `book`, `desk`: the plain book, and desk calls beside it; `migrate`: desks that go over to edition 2.

pub mod book;
pub mod convert;
pub mod damage;
pub mod decompose;
pub mod desk;
pub mod families;
pub mod flow;
pub mod known;
pub mod lent;
pub mod migrate;
pub mod near;
pub mod records;
pub mod reference;
pub mod rng;
pub mod run;
