//! Tests of `progress` by its public calls.
use cluster_types::{MapEntry, Members, NodeId, NodeList, PartitionId, Row4096};
use progress::Progress;
use std::alloc::Global;
use std::process::Abort;
use std::test::Fail;

fn node(rt: &impl Abort, n: u16) -> NodeId {
    NodeId::new(n).expect(rt, "no node")
}

fn partition(rt: &impl Abort) -> PartitionId {
    PartitionId::new(7).expect(rt, "no partition")
}

/// What the node 1 or 2 knows at first, of these two members.
fn known_at(rt: &impl Abort, alloc: Global, me: u16) -> Result<Progress, Fail> {
    let members = Members::from_slice(&[node(rt, 2), node(rt, 1)]).expect(rt, "no members");
    Ok(Progress::new(alloc, &members, node(rt, me))?)
}

/// A row in which that partition's bit stands where `set`.
fn row(p: PartitionId, set: bool) -> Row4096 {
    let mut row = Row4096::new();
    if set {
        row.put(p);
    }
    row
}

/// The list master is the node 2, and the node 1 serves.
fn entry(rt: &impl Abort) -> MapEntry {
    let list = NodeList::from_slice(&[node(rt, 2), node(rt, 1)]);
    MapEntry {
        list: list.expect(rt, "no list"),
        acting: node(rt, 1),
        all_empty: false,
    }
}

/// A Progress came from that node, with these bits of the one partition.
fn hear(rt: &impl Abort, known: &mut Progress, from: u16, done: bool, handed: bool) {
    let p = partition(rt);
    let from = node(rt, from);
    assert!(rt; known.others().contains(from));
    known.heard(from, &row(p, done), &row(p, handed), &row(p, false));
}

#[test]
fn the_node_that_serves_hands_over_once_all_are_done(rt: HostRuntime) -> Result<(), Fail> {
    let p = partition(&rt);
    let e = entry(&rt);
    let mut known = known_at(&rt, rt.alloc(), 1)?;
    known.own_done(&row(p, true));
    assert!(rt; !known.may_hand(p, &e, false));
    hear(&rt, &mut known, 2, true, false);
    assert!(rt; !known.may_hand(p, &e, true));
    assert!(rt; known.may_hand(p, &e, false));
    known.hand(p, &e, false);
    assert!(rt; known.is_handed(p) && known.is_own_handed(p));
    assert!(rt; !known.may_hand(p, &e, false));
    Ok(())
}

#[test]
fn the_list_master_settles_what_was_handed_over(rt: HostRuntime) -> Result<(), Fail> {
    let p = partition(&rt);
    let e = entry(&rt);
    let mut known = known_at(&rt, rt.alloc(), 2)?;
    assert!(rt; !known.may_settle(p, &e, false));
    hear(&rt, &mut known, 1, false, true);
    assert!(rt; known.knows_settled(p).is_none());
    assert!(rt; known.may_settle(p, &e, false));
    known.settle(p, &e, false);
    assert!(rt; known.is_own_settled(p));
    assert_eq!(rt; known.knows_settled(p).map(|bit| bit.partition()), Some(p));
    Ok(())
}

#[test]
fn a_later_progress_takes_the_place_of_the_last(rt: HostRuntime) -> Result<(), Fail> {
    let p = partition(&rt);
    let mut known = known_at(&rt, rt.alloc(), 1)?;
    known.own_done(&row(p, true));
    for done in [true, false, true, true] {
        hear(&rt, &mut known, 2, done, false);
        assert_eq!(rt; known.all_done(p), done);
    }
    Ok(())
}
