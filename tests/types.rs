//! Worked rows of `cluster_types`, and each of its public calls once.

mod lists;
mod made;
mod names;
mod rows;
