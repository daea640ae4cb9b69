//! Tests by name: short histories with expected answers written out by hand.

mod book_form;
mod capacities;
mod choices;
mod client;
mod examples;
mod letters;
mod longer_values;
mod merge_by_weight;
mod numbers;
mod old_marks;
mod opening;
mod probes;
mod reading;
mod refusals;
mod saving;
mod steps;
mod summary_bits;
mod summary_letters;
mod tables;
