//! Bytes that are no message, and the first fault in them.
use super::bytes::{DIGEST, HI, KEY, fault_of};
use std::alloc::Global;
use std::process::Abort;
use std::test::Fail;
use wire_codec::DecodeFault;

/// A number of a transaction, a batch, a request or a scan.
const ONE: &[u8] = &[0, 0, 0, 1];

/// Each row's bytes have a field whose value isn't allowed, and it begins at the row's place.
fn are_bad(rt: &impl Abort, alloc: Global, rows: &[(usize, &[&[u8]])]) -> Result<(), Fail> {
    for (place, fields) in rows {
        let bytes = fields.concat(alloc)?;
        let fault = fault_of(alloc, &bytes)?;
        let found = matches!(fault, Some(DecodeFault::BadField(at)) if at == *place);
        assert!(rt; found, "{bytes:?}: {fault:?} for {place}");
    }
    Ok(())
}

#[test]
fn no_message_is_of_another_kind(rt: HostRuntime) -> Result<(), Fail> {
    for kind in [0, 26, 255] {
        let fault = fault_of(rt.alloc(), &[kind, 1, 2])?;
        assert!(rt; matches!(fault, Some(DecodeFault::BadKind(byte)) if byte == kind));
    }
    let fault = fault_of(rt.alloc(), &[])?;
    assert!(rt; matches!(fault, Some(DecodeFault::Short)));
    Ok(())
}

#[test]
fn keys_and_lists_of_nodes_keep_their_ranges(rt: HostRuntime) -> Result<(), Fail> {
    are_bad(
        &rt,
        rt.alloc(),
        &[
            // No round, no principal, and neither where there has to be a key.
            (1, &[&[3], &[0, 0, 0, 0, 0, 0, 0, 2]]),
            (1, &[&[3], &[0, 0, 0, 0, 0, 1, 0, 0]]),
            (9, &[&[4], KEY, &[0; 8]]),
            (9, &[&[1], &[0; 8], &[0, 0, 0, 0, 0, 1, 0, 0]]),
            // Sixteen ids are heard, the id 0, and ids that don't fall.
            (17, &[&[1], &[0; 16], &[16]]),
            (18, &[&[1], &[0; 16], &[1, 0, 0]]),
            (20, &[&[1], &[0; 16], &[2, 0, 3, 0, 3]]),
            // No members, and seventeen.
            (9, &[&[2], KEY, &[0]]),
            (9, &[&[5], KEY, &[17]]),
            // A plain role, a mark of 2, and members that are all plain.
            (18, &[&[16], &[0; 16], &[0, 0, 0]]),
            (18, &[&[16], &[0; 16], &[0, 1, 2]]),
            (16, &[&[17], KEY, &[2, 0, 2, 0, 0, 0, 1, 0, 0]]),
        ],
    )
}

#[test]
fn copies_and_records_keep_their_ranges(rt: HostRuntime) -> Result<(), Fail> {
    are_bad(
        &rt,
        rt.alloc(),
        &[
            // Of a state: the wish, the count, the partition, the tag, the order.
            (9, &[&[6], KEY, &[2]]),
            (10, &[&[6], KEY, &[0], &[16, 1]]),
            (12, &[&[6], KEY, &[0], &[0, 1], &[16, 0]]),
            (14, &[&[6], KEY, &[0], &[0, 1], &[0, 0, 0]]),
            (14, &[&[6], KEY, &[0], &[0, 1], &[0, 0, 3]]),
            (15, &[&[6], KEY, &[0], &[0, 2], &[0, 5, 1], &[0, 5, 1]]),
            // Of a batch: the number, the count, the order.
            (9, &[&[7], KEY, &[0; 4]]),
            (13, &[&[7], KEY, ONE, &[0]]),
            (13, &[&[7], KEY, ONE, &[65]]),
            (50, &[&[7], KEY, ONE, &[2], DIGEST, HI, DIGEST, HI]),
            // Of a version: the generation, the tag, the length.
            (22, &[&[13], KEY, ONE, &[1], &[0; 12]]),
            (26, &[&[13], KEY, ONE, &[1], &[0; 8], ONE, &[2]]),
            (27, &[&[13], KEY, ONE, &[1], &[0; 8], ONE, &[1, 129]]),
            // The id of a partition's acting node.
            (8199, &[&[15], KEY, &[1; 8190], &[0, 0]]),
        ],
    )
}

#[test]
fn requests_and_scans_keep_their_ranges(rt: HostRuntime) -> Result<(), Fail> {
    are_bad(
        &rt,
        rt.alloc(),
        &[
            // The number of a write, the tag of an answer, a want.
            (13, &[&[10], KEY, ONE, &[0; 4]]),
            (13, &[&[13], KEY, ONE, &[2]]),
            (33, &[&[19], KEY, ONE, DIGEST, &[3]]),
            // There is no view, in a reply to a proxy, and in one that has a key.
            (13, &[&[20], KEY, ONE, &[6]]),
            (13, &[&[22], KEY, ONE, &[6]]),
            (13, &[&[22], &[0; 8], ONE, &[7]]),
            (14, &[&[20], KEY, ONE, &[3, 0, 0]]),
            (14, &[&[20], KEY, ONE, &[5, 0, 0, 0, 0]]),
            // Of a scan: its number, the partition, the position, the count, whether there is more.
            (1, &[&[23], &[0; 4]]),
            (5, &[&[23], ONE, &[16, 0]]),
            (7, &[&[23], ONE, &[0, 0], &[2]]),
            (18, &[&[24], KEY, ONE, &[0], ONE, &[65]]),
            (19, &[&[24], KEY, ONE, &[0], ONE, &[0], &[2]]),
            // The tag of a refusal.
            (5, &[&[25], ONE, &[0]]),
            (5, &[&[25], ONE, &[6]]),
        ],
    )
}

#[test]
fn the_first_fault_counts(rt: HostRuntime) -> Result<(), Fail> {
    are_bad(
        &rt,
        rt.alloc(),
        &[
            // The second field is bad too, it is cut, and bytes follow it.
            (1, &[&[4], &[0; 8], &[0; 8]]),
            (1, &[&[4], &[0; 8], &[0]]),
            (1, &[&[4], &[0; 8], KEY, &[0]]),
        ],
    )
}

#[test]
fn refused_memory_is_no_fault_of_the_bytes(rt: HostRuntime) {
    // No machine has so much memory.
    let mut bytes: Vec<u8> = Vec::new(rt.alloc());
    match bytes.reserve(usize::MAX) {
        Ok(()) => panic!(rt; "there is room"),
        Err(refused) => {
            let fault = DecodeFault::from(refused);
            assert!(rt; matches!(fault, DecodeFault::NoMemory), "{fault}");
        }
    }
}

#[test]
fn faults_are_told_in_words(rt: HostRuntime) -> Result<(), Fail> {
    for (fault, text) in [
        (
            DecodeFault::BadKind(26),
            "no message begins with the byte 26",
        ),
        (
            DecodeFault::BadField(9),
            "the field at byte 9 has a value that isn't allowed",
        ),
        (DecodeFault::Short, "the bytes end before the message does"),
        (DecodeFault::Long(1), "1 bytes follow the message"),
        (DecodeFault::NoMemory, "out of memory"),
    ] {
        assert_eq!(rt; fault.to_string(rt.alloc())?.as_str(), text);
    }
    Ok(())
}
