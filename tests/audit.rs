//! Transcripts read and judged by the public calls of `audit_core`.

mod joins;
mod journals;
mod losses;
mod maps;
mod oddities;
mod reading;
mod settling;
mod shape;
