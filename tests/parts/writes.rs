//! Tests of `write_path` by its public calls.

use cluster_types::{CopyState, Digest, NodeId, NodeList};
use conflict_order::{Body, ValueBytes, ValueFault, Version, Want};
use dup_resolve::{AckedStep, Txns};
use record_store::{Joined, RecordStore};
use std::alloc::Global;
use std::process::Abort;
use std::test::Fail;
use write_path::{Seen, apply, apply_planned, next_version, on_repl};

fn version(alloc: Global, lut: u64, generation: u32, value: &[u8]) -> Result<Version, ValueFault> {
    let body = Body::Value(ValueBytes::from_slice(alloc, value)?);
    Ok(Version {
        lut,
        generation,
        body,
    })
}

fn digest() -> Digest {
    let mut bytes = [0; 20];
    bytes[0] = 0xff;
    bytes[1] = 0xff;
    Digest::new(bytes)
}

fn node(rt: &impl Abort, n: u16) -> NodeId {
    NodeId::new(n).expect(rt, "an id")
}

/// Opens the first transaction of a table, which asks nobody.
fn open(rt: &impl Abort, txns: &mut Txns, d: Digest, want: Want, best: Option<Version>) -> u32 {
    txns.begin(d, want, best, NodeList::new())
        .expect(rt, "a number")
}

/// Node 2 holds 0.1=62 and puts c: 0.2=63 goes to node 1.
#[test]
fn a_write_is_applied(rt: HostRuntime) -> Result<(), Fail> {
    let alloc = rt.alloc();
    let d = digest();
    let mut store = RecordStore::new(alloc)?;
    let mut txns = Txns::new(alloc);
    let put = Want::Put(ValueBytes::from_slice(alloc, b"c")?);
    let best = Some(version(alloc, 0, 1, b"b")?);
    let t = open(&rt, &mut txns, d, put, best);
    let to = NodeList::from_slice(&[node(&rt, 1)]).expect(&rt, "no list");

    let applied = apply(alloc, &mut store, &mut txns, t, 0, to)?;
    assert!(rt; applied == version(alloc, 0, 2, b"c")?);
    assert!(rt; store.get(&d) == Some(&applied));
    assert_eq!(rt; txns.acked(node(&rt, 1), t), AckedStep::Done);
    Ok(())
}

#[test]
fn a_write_is_taken_once(rt: HostRuntime) -> Result<(), Fail> {
    let alloc = rt.alloc();
    let d = digest();
    let mut replica = RecordStore::new(alloc)?;
    let v = version(alloc, 0, 2, b"c")?;
    assert_eq!(rt; on_repl(alloc, &mut replica, d, &v)?, Joined::Newer);
    assert_eq!(rt; on_repl(alloc, &mut replica, d, &v)?, Joined::Kept);
    assert!(rt; replica.get(&d) == Some(&v));
    Ok(())
}

#[test]
fn a_planned_write_is_applied(rt: HostRuntime) -> Result<(), Fail> {
    let alloc = rt.alloc();
    let d = digest();
    let mut store = RecordStore::new(alloc)?;
    let mut txns = Txns::new(alloc);
    let t = open(&rt, &mut txns, d, Want::Del, None);
    let v = next_version(None, 9, Body::Tombstone);
    let wanted = v.copy(alloc)?;
    store.reserve_one(&d)?;
    apply_planned(&mut store, &mut txns, t, 9, v, NodeList::new());
    assert!(rt; store.get(&d) == Some(&wanted));
    Ok(())
}

/// `clock 1 100`, a put, `clock 1 7`, another put: 100.1 and 100.2.
#[test]
fn time_and_generation_never_fall(rt: HostRuntime) -> Result<(), Fail> {
    let alloc = rt.alloc();
    let first = next_version(None, 100, Body::Tombstone);
    assert_eq!(rt; (first.lut, first.generation), (100, 1));
    let second = next_version(Some(&first), 7, Body::Tombstone);
    assert_eq!(rt; (second.lut, second.generation), (100, 2));
    let last = version(alloc, 0, u32::MAX, b"a")?;
    let after = next_version(Some(&last), 5, Body::Tombstone);
    assert_eq!(rt; (after.lut, after.generation), (5, u32::MAX));
    Ok(())
}

#[test]
fn a_gap_in_the_numbers_is_seen(rt: HostRuntime) -> Result<(), Fail> {
    let mut seen = Seen::new(rt.alloc());
    assert_eq!(rt; seen.writes(), 0);
    let none = CopyState::NO_CLASS;
    for (nth, writes) in [
        (2, none),
        (4, none),
        (1, none),
        (4, none),
        (3, 4),
        (1, 4),
        (5, 5),
    ] {
        seen.reserve()?;
        seen.take(nth)?;
        assert_eq!(rt; seen.writes(), writes, "after {nth}");
    }
    Ok(())
}
