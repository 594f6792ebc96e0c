//! A plain implementation of document 01, generators of inputs, and what runs two implementations
//! beside each other.

pub mod answer;
pub mod beside;
pub mod cases;
pub mod damage;
pub mod document;
pub mod generate;
pub mod jobs;
pub mod laws;
pub mod linked;
pub mod reference;
pub mod report;
#[cfg(test)]
mod tests;
