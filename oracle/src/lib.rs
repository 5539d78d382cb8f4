//! The original beside ours. `poly` is the original's text (oxieml, commit fd90575a01, Apache-2.0, see LICENSE.txt);
//! everything else here was written for the comparison.

pub mod cases;
pub mod cases_real;
pub mod jobs;
pub mod lower;
pub mod original;
pub mod ours;
pub mod poly;
pub mod rule;
pub mod rule_real;
pub mod tally;
