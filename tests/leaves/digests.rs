//! Published digests, in pieces of several sizes.
use cluster_types::Digest;
use digest_ripemd::{Ripemd160, digest_of};
use std::alloc::{AllocError, Global};
use std::test::Fail;

/// The digest of the message, fed in pieces of this size.
fn digest_in_pieces(message: &[u8], size: usize) -> Digest {
    let mut hasher = Ripemd160::new();
    let mut place = 0;
    while place < message.len() {
        let end = place + size.min(message.len() - place);
        hasher.update(&message[place..end]);
        place = end;
    }
    hasher.finish()
}

/// A byte so many times.
fn repeated(alloc: Global, byte: u8, count: usize) -> Result<Vec<u8>, AllocError> {
    vec![in alloc; byte; count]
}

#[test]
fn published_messages_have_their_digests(rt: HostRuntime) -> Result<(), Fail> {
    let rows = [
        ("", "9c1185a5c5e9fc54612808977ee8f548b2258d31"),
        ("a", "0bdc9d2d256b3ee9daae347be6f4dc835a467ffe"),
        ("abc", "8eb208f7e05d987a9b044a8e98c6b087f15a0bfc"),
        ("message digest", "5d0689ef49d2fae572b881b123a85ffa21595f36"),
    ];
    for (message, digest) in rows {
        assert_eq!(rt;
            digest_in_pieces(message.as_bytes(), 5)
                .to_string(rt.alloc())?
                .as_str(),
            digest
        );
    }
    Ok(())
}

#[test]
fn lengths_about_a_block_have_their_digests(rt: HostRuntime) -> Result<(), Fail> {
    let rows = [
        (55, "3c86963b3ff646a65ae42996e9664c747cc7e5e6"),
        (56, "ebdd79cfd4fd9949ef8089673d2620427f487cfb"),
        (63, "6d31d3d634b4a7aa15914c239576eb1956f2d9a4"),
        (64, "2581f5e9f957b44b0fa24d31996de47409dd1e0f"),
        (65, "109949b95341eeea7365e8ac4d0d3883d98f709a"),
        (119, "ad430b4283203a7b7f338b9d252dfdbf807402bf"),
        (120, "b89cdc109009f1982c8b34fca446953584d3f6c4"),
    ];
    let mut message = [0; 120];
    for (place, byte) in message.iter_mut().enumerate() {
        *byte = place as u8;
    }
    for (length, digest) in rows {
        for size in [1, 7, 64, 120] {
            let made = digest_in_pieces(&message[..length], size);
            assert_eq!(rt; made.to_string(rt.alloc())?.as_str(), digest);
        }
    }
    Ok(())
}

#[test]
fn a_million_bytes_have_their_digest(rt: HostRuntime) -> Result<(), Fail> {
    let million = repeated(rt.alloc(), b'a', 1_000_000)?;
    let digest = "52783243c1697bdbe16d37f97f68f08325dc1528";
    for size in [63, 1000, 1_000_000] {
        let made = digest_in_pieces(&million, size);
        assert_eq!(rt; made.to_string(rt.alloc())?.as_str(), digest);
    }
    Ok(())
}

#[test]
fn a_record_has_the_digest_of_its_set_and_key(rt: HostRuntime) -> Result<(), Fail> {
    let made = digest_of(b"demo", b"user1");
    let digest = "03161f352c8ab85448952c896ecdaa122b3c4e71";
    assert_eq!(rt; made.to_string(rt.alloc())?.as_str(), digest);
    Ok(())
}
