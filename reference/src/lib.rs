//! A second implementation of the survey store, written from the order alone, and a judge of bytes
//! for any implementation. See README.md for the map of modules.

pub mod campaign;
pub mod compact;
pub mod generate;
pub mod implementation;
pub mod journey;
pub mod judge;
pub mod lent;
pub mod letters;
pub mod limits;
pub mod merge;
pub mod probe;
pub mod program;
pub mod reached;
pub mod read;
pub mod reopen;
pub mod reopened;
pub mod request;
pub mod rules;
pub mod run;
pub mod saved;
pub mod slip;
pub mod store;
pub mod summary;
pub mod table;
pub mod tidy;
pub mod together;
pub mod trial;
