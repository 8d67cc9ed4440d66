//! A reference for document 01 with requests (i), (ii), (iv) to (viii) and (xiii) of document 02, written
//! from their text and meant to be read beside it, and the comparison of another program with it.

// The sections of document 01.
pub mod big;
pub mod build;
pub mod check;
pub mod coding;
pub mod estimate;
pub mod fits;
pub mod list;
pub mod lowest;
pub mod sheet;
pub mod words;

// Requests (i), (ii), (vii), (viii) and (xiii) of document 02.
pub mod journal;
pub mod pass;
pub mod search;
pub mod worksheet;

// Demand 3 and the same rule for a search, and the sharper rule of request (vi).
pub mod demand;
pub mod sharper;

// Those who answer the calls.
pub mod broken;
#[cfg(feature = "linked")]
pub mod linked;
pub mod program;

// The comparison.
pub mod compare;
pub mod generate;

// The benchmark.
pub mod bench;
