//! Messages and their bytes, as the formats have them, by the public calls of `wire_codec`.

mod bytes;
mod faults;
mod spellings;
