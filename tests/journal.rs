//! Lines written and read by the public calls of `journal_text` and `journal_reader`.

mod lines;
mod reading;
mod writing;
