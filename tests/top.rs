//! Tests of `run` and of what else `cluster_top` offers, by its public calls: what no clause says.

mod audits;
mod failing_ends;
mod pairs;
mod runs;
mod texts;
mod two_sides;
