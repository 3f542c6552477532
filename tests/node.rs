//! Tests of a node by its public calls.

use cluster_types::{Digest, NodeId, NodeList, PartitionId};
use conflict_order::{Body, ValueBytes, ValueFault, Version, Want};
use node_core::Node;
use std::alloc::Global;
use std::process::Abort;
use std::test::Fail;
use wire_messages::ScanRefusal;

/// A digest of partition 4095.
fn digest(last: u8) -> Digest {
    let mut bytes = [0; 20];
    bytes[0] = 0xff;
    bytes[1] = 0xff;
    bytes[19] = last;
    Digest::new(bytes)
}

/// The version 0.1=76.
fn version(alloc: Global) -> Result<Version, ValueFault> {
    Ok(Version {
        lut: 0,
        generation: 1,
        body: Body::Value(ValueBytes::from_slice(alloc, b"v")?),
    })
}

/// A node that is alone and holds 65 records of a partition shows them in two pages.
#[test]
fn a_partition_is_shown_page_by_page(rt: HostRuntime) -> Result<(), Fail> {
    let alloc = rt.alloc();
    let me = NodeId::new(1).expect(&rt, "an id");
    let p = PartitionId::new(4095).expect(&rt, "a partition");
    let mut node = Node::new(alloc, me, NodeList::new(), 1)?;
    assert!(rt; node.scan_state(p) == Err(ScanRefusal::NoView));

    for _ in 0..3 {
        node.tick(alloc, 0)?;
        node.commit();
    }
    assert!(rt; node.scan_state(p) == Ok(0));
    for last in 0..65 {
        let value = Want::Put(ValueBytes::from_slice(alloc, b"v")?);
        node.request(alloc, digest(last), value, 0)?;
        node.commit();
    }
    assert!(rt; node.scan_state(p) == Ok(65));

    let first = node.page(alloc, p, None, 64)?;
    assert!(rt; first.more);
    assert_eq!(rt; first.records.len(), 64);
    assert!(rt; first.records.get(0) == Some(&(digest(0), version(alloc)?)));
    assert!(rt; first.records.get(63) == Some(&(digest(63), version(alloc)?)));

    let second = node.page(alloc, p, Some(&digest(63)), 64)?;
    assert!(rt; !second.more);
    assert_eq!(rt; second.records.len(), 1);
    assert!(rt; second.records.get(0) == Some(&(digest(64), version(alloc)?)));

    let whole = node.page(alloc, p, None, 65)?;
    assert!(rt; !whole.more);
    assert_eq!(rt; whole.records.len(), 65);
    Ok(())
}
