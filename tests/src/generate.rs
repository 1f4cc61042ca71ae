//! Inputs from a seed: whole, on the edge, loose and damaged.

pub mod damaged;
pub mod edits;
pub mod identifiers;
pub mod locks;
pub mod sheets;
pub mod tags;
pub mod values;
pub mod words;
