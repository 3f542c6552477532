//! Tests of `dup_resolve` by its public calls.

use cluster_types::{Digest, NodeId, NodeList, partition_of};
use conflict_order::{Body, ValueBytes, ValueFault, Version, Want};
use dup_resolve::{AckedStep, AnswerStep, BeginFault, Txns};
use std::alloc::Global;
use std::process::Abort;
use std::test::Fail;

fn version(alloc: Global, value: &[u8]) -> Result<Version, ValueFault> {
    Ok(Version {
        lut: 0,
        generation: 1,
        body: Body::Value(ValueBytes::from_slice(alloc, value)?),
    })
}

/// A digest of partition 4095.
fn digest(last: u8) -> Digest {
    let mut bytes = [0; 20];
    bytes[0] = 0xff;
    bytes[1] = 0xff;
    bytes[19] = last;
    Digest::new(bytes)
}

fn node(rt: &impl Abort, n: u16) -> NodeId {
    NodeId::new(n).expect(rt, "an id")
}

fn nodes(rt: &impl Abort, ids: &[NodeId]) -> NodeList {
    NodeList::from_slice(ids).expect(rt, "no list")
}

/// Opens a transaction for which there is memory, on a digest that has none.
fn open(rt: &impl Abort, txns: &mut Txns, d: Digest, want: Want, asked: NodeList) -> u32 {
    txns.begin(d, want, None, asked).expect(rt, "a number")
}

/// Closes a transaction, which is open.
fn close(rt: &impl Abort, txns: &mut Txns, t: u32) {
    assert!(rt; txns.get(t).is_some());
    txns.finish(t);
}

/// The two sides of a split: node 2 holds 0.1=62, asks node 1, and node 1 holds 0.1=61.
#[test]
fn a_read_asks_and_is_resolved(rt: HostRuntime) -> Result<(), Fail> {
    let alloc = rt.alloc();
    let (d, asked) = (digest(0), node(&rt, 1));
    let mut txns = Txns::new(alloc);
    let held = Some(version(alloc, b"b")?);
    let begun = txns.begin(d, Want::Get, held, nodes(&rt, &[asked]));
    assert_eq!(rt; begun, Ok(1));

    assert_eq!(rt; txns.on_answer(node(&rt, 3), 1, None), AnswerStep::Spent);
    assert_eq!(rt; txns.on_answer(asked, 2, None), AnswerStep::Spent);
    let other = Some(version(alloc, b"a")?);
    assert_eq!(rt; txns.on_answer(asked, 1, other), AnswerStep::Resolved);
    assert_eq!(rt; txns.on_answer(asked, 1, None), AnswerStep::Spent);

    let best = Some(version(alloc, b"b")?);
    assert!(rt; txns.get(1).map(|t| t.best == best) == Some(true));
    Ok(())
}

#[test]
fn one_is_open_on_a_digest(rt: HostRuntime) -> Result<(), Fail> {
    let (d, p) = (digest(0), partition_of(&digest(0)));
    let mut txns = Txns::new(rt.alloc());
    let t = open(&rt, &mut txns, d, Want::Get, NodeList::new());
    assert_eq!(rt; t, 1);
    let again = txns.begin(d, Want::Get, None, NodeList::new());
    assert_eq!(rt; again, Err(BeginFault::Busy(1)));
    assert!(rt; txns.busy_on(p));

    close(&rt, &mut txns, t);
    assert!(rt; txns.get(t).is_none());
    assert!(rt; !txns.busy_on(p));
    assert_eq!(rt; txns.opened(), 1);
    assert_eq!(rt; txns.next_id(), 2);
    Ok(())
}

#[test]
fn a_write_awaits_answers_and_then_acknowledgements(rt: HostRuntime) -> Result<(), Fail> {
    let (a, b) = (node(&rt, 3), node(&rt, 1));
    let mut txns = Txns::new(rt.alloc());
    let t = open(&rt, &mut txns, digest(1), Want::Del, nodes(&rt, &[a, b]));
    assert_eq!(rt; txns.on_answer(a, t, None), AnswerStep::Waiting);
    assert_eq!(rt; txns.acked(b, t), AckedStep::Spent);
    assert_eq!(rt; txns.on_answer(b, t, None), AnswerStep::Resolved);
    txns.write_applied(t, nodes(&rt, &[b, a]));
    assert_eq!(rt; txns.acked(b, t), AckedStep::Waiting);
    assert_eq!(rt; txns.acked(a, t), AckedStep::Done);
    Ok(())
}

#[test]
fn a_walk_passes_over_what_is_closed(rt: HostRuntime) -> Result<(), Fail> {
    let alloc = rt.alloc();
    let mut txns = Txns::new(alloc);
    let first = open(&rt, &mut txns, digest(1), Want::Get, NodeList::new());
    let _ = open(&rt, &mut txns, digest(2), Want::Get, NodeList::new());
    let third = open(&rt, &mut txns, digest(3), Want::Get, NodeList::new());
    let _ = open(&rt, &mut txns, digest(4), Want::Get, NodeList::new());
    close(&rt, &mut txns, first);
    close(&rt, &mut txns, third);
    let numbers: Vec<u32> = txns.iter().map(|t| t.id).collect(alloc)?;
    assert_eq!(rt; numbers.as_slice(), [2, 4].as_slice());
    Ok(())
}

#[test]
fn an_end_closes_all(rt: HostRuntime) -> Result<(), Fail> {
    let alloc = rt.alloc();
    let mut txns = Txns::new(alloc);
    let _ = open(&rt, &mut txns, digest(1), Want::Get, NodeList::new());
    let write = open(&rt, &mut txns, digest(2), Want::Del, NodeList::new());
    txns.write_applied(write, nodes(&rt, &[node(&rt, 1)]));
    let closed = txns.close_all(alloc)?;
    assert_eq!(rt; closed.as_slice(), [(1, false), (2, true)].as_slice());
    assert!(rt; txns.is_empty());
    assert_eq!(rt; txns.next_id(), 1);
    Ok(())
}
