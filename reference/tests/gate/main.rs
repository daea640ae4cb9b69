//! All tests of the second implementation and of the judge, as one program.

mod bits;
mod build;
mod capacities;
mod cleared;
mod common;
mod damage;
mod examples;
mod formats;
mod histories;
mod letters;
mod marks;
mod mutants;
mod plans;
mod program;
mod refusals;
mod saved_bytes;
mod saving;
mod weights;
