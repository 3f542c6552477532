//! Tests of small crates by their public calls.

mod chains;
mod digests;
mod events;
mod network;
mod placement;
mod stores;
mod versions;
