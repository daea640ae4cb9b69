//! What the survey store costs, beside other stores on the same keys, all in one run. The answers are compared as well, so a run is
//! also a test. See docs/PERFORMANCE.md.

pub mod cases;
pub mod checks;
pub mod clock;
pub mod compare;
pub mod engine;
pub mod engines;
pub mod kept;
pub mod lists;
pub mod options;
pub mod places;
pub mod proved;
pub mod report;
pub mod rounds;
pub mod setup;
pub mod thresholds;
pub mod upper;
pub mod workload;
