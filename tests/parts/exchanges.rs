//! Tests of `exchange` by its public calls.

use cluster_types::{ClusterKey, CopyState, MapView, Members, NodeId, PartitionId, StateRow};
use exchange::{ExchangeStep, begin};
use std::process::Abort;
use std::test::Fail;

const KEY: ClusterKey = ClusterKey {
    round: 2,
    principal: 2,
};

fn node(rt: &impl Abort, n: u16) -> NodeId {
    NodeId::new(n).expect(rt, "no node")
}

#[test]
fn the_last_row_completes_the_map(rt: HostRuntime) -> Result<(), Fail> {
    let alloc = rt.alloc();
    let (one, two) = (node(&rt, 1), node(&rt, 2));
    let members = Members::from_slice(&[two, one]).expect(&rt, "no members");
    let p = PartitionId::new(4095).expect(&rt, "no partition");
    let q = PartitionId::new(0).expect(&rt, "no partition");
    let mut own = StateRow::new(alloc);
    let state = CopyState::Whole {
        key: ClusterKey {
            round: 1,
            principal: 1,
        },
        writes: 1,
    };
    own.add(p, state)?;
    let ExchangeStep::Waiting(waiting) = begin(alloc, KEY, members, one, 2, own)? else {
        return Err(Fail::from("complete without a row"));
    };
    assert_eq!(rt; waiting.missing(), two);
    assert!(rt; waiting.lacks(two));
    assert!(rt; !waiting.lacks(one));
    let ExchangeStep::Complete(done) = waiting.on_state(two, StateRow::new(alloc)) else {
        return Err(Fail::from("waiting with all rows"));
    };
    let entry = done.map(p);
    assert_eq!(rt; entry.acting, one);
    assert!(rt; !entry.all_empty);
    assert!(rt; done.map(q).all_empty);
    assert_eq!(rt; Some(&done.map(q).acting), done.map(q).list.get(0));
    assert!(rt; done.sends(p, one, two));
    assert!(rt; !done.sends(p, two, one));
    assert!(rt; !done.sends(q, one, two));
    assert!(rt; done.asks(p, two).contains(one));
    assert!(rt; done.asks(p, one).is_empty());
    let (waiting, row) = done.without_last(two);
    assert_eq!(rt; row.len(), 0);
    assert_eq!(rt; waiting.missing(), two);
    assert_eq!(rt; waiting.own_row().get(p), state);
    Ok(())
}

#[test]
fn a_view_of_one_member_is_complete_at_once(rt: HostRuntime) -> Result<(), Fail> {
    let one = node(&rt, 1);
    let members = Members::from_slice(&[one]).expect(&rt, "no members");
    let p = PartitionId::new(7).expect(&rt, "no partition");
    let step = begin(rt.alloc(), KEY, members, one, 2, StateRow::new(rt.alloc()))?;
    let ExchangeStep::Complete(done) = step else {
        return Err(Fail::from("waiting for nobody"));
    };
    assert_eq!(rt; done.map(p).acting, one);
    assert!(rt; done.lists().is_replica(one, p, 2));
    Ok(())
}
