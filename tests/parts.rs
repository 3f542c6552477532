//! Tests of a node's parts by their public calls.

mod agreement;
mod bits;
mod copies;
mod exchanges;
mod hand_over;
mod hearing;
mod merging;
mod tables;
mod transactions;
mod writes;
