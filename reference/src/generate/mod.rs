//! Seeded generators: request lists, arbitrary sound stores, broken lists, damaged stores and the letters they are refused by,
//! saved books and what saving and opening must say of them.

pub mod book;
pub mod broken;
pub mod damage;
mod damaged_bits;
mod damaged_links;
mod damaged_numbers;
pub mod descent;
pub mod features;
pub mod full;
pub mod keys;
pub mod marked;
pub mod opening;
pub mod plan;
pub mod planted;
pub mod probed;
pub mod probes;
pub mod profile;
pub mod random;
pub mod relieved;
pub mod requests;
pub mod saving;
pub mod sketch;
pub mod spoiled;
pub mod summed;
pub mod told;
pub mod vectors;
mod weigh;
