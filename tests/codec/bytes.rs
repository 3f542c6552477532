//! Bytes of fields, and what is wrong with bytes.
use cluster_types::NoMemory;
use std::alloc::Global;
use std::test::Fail;
use wire_codec::{DecodeFault, decode};

/// The key 1.2.
pub const KEY: &[u8] = &[0, 0, 0, 0, 0, 1, 0, 2];

/// A digest of which every byte is 7.
pub const DIGEST: &[u8] = &[7; 20];

/// The version 0.1 of the value `hi`.
pub const HI: &[u8] = &[0, 0, 0, 0, 0, 0, 0, 0, 0, 0, 0, 1, 1, 2, b'h', b'i'];

/// Why the bytes are no message, if they are none.
pub fn fault_of(alloc: Global, bytes: &[u8]) -> Result<Option<DecodeFault>, Fail> {
    match decode(alloc, bytes) {
        Ok(_) => Ok(None),
        Err(DecodeFault::NoMemory) => Err(NoMemory)?,
        Err(fault) => Ok(Some(fault)),
    }
}
