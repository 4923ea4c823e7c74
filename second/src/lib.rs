//! A second Flamecurl, written from document 01 and its readings (`quick` alone
//! by someone who had read the proved code). Nothing here is proved: it is there
//! to disagree with the proved program if one of the two is wrong, so it uses
//! other algorithms wherever it can (sets and moments instead of a byte table, a
//! tree of shadow tables instead of a flat pool).
//!
//! Reading order: rules, puzzle, lists, machine, flat, report, gen, shrink; quick for speed.

pub mod flat;
pub mod gen;
pub mod lists;
pub mod machine;
pub mod puzzle;
pub mod quick;
pub mod report;
pub mod rules;
pub mod shrink;
