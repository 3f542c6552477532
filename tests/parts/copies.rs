//! Tests of `partition_state` by its public calls.
use cluster_types::{ClusterKey, CopyState, NoMemory, NodeId, NodeList, PartitionId, StateRow};
use partition_state::{MemberRow, States, acting, all_empty, class_first, same_class};
use std::alloc::Global;
use std::process::Abort;
use std::test::Fail;

const KEY: ClusterKey = ClusterKey {
    round: 2,
    principal: 1,
};

fn node(rt: &impl Abort, n: u16) -> NodeId {
    NodeId::new(n).expect(rt, "no node")
}

fn whole(writes: u32) -> CopyState {
    CopyState::Whole { key: KEY, writes }
}

/// A row with that state at the partition, and no other.
fn row_of(
    alloc: Global,
    node: NodeId,
    p: PartitionId,
    state: CopyState,
) -> Result<MemberRow, NoMemory> {
    let mut row = StateRow::new(alloc);
    if state != CopyState::Empty {
        row.add(p, state)?;
    }
    Ok(MemberRow { node, row })
}

#[test]
fn of_five_copies_two_are_equal(rt: HostRuntime) -> Result<(), Fail> {
    let alloc = rt.alloc();
    let nodes = [5, 4, 3, 2, 1].map(|n| node(&rt, n));
    let [five, four, three, two, one] = nodes;
    let list = NodeList::from_slice(&nodes).expect(&rt, "no list");
    let p = PartitionId::new(7).expect(&rt, "no partition");
    let other = PartitionId::new(6).expect(&rt, "no partition");
    let rows = [
        row_of(alloc, one, p, whole(3))?,
        row_of(alloc, two, p, whole(CopyState::NO_CLASS))?,
        row_of(alloc, three, p, whole(3))?,
        row_of(alloc, four, p, CopyState::Part)?,
        row_of(alloc, five, p, CopyState::Empty)?,
    ];
    assert_eq!(rt; acting(&list, &rows, p), three);
    assert_eq!(rt; acting(&list, &rows, other), five);
    assert!(rt; !all_empty(&rows, p));
    assert!(rt; all_empty(&rows, other));
    assert_eq!(rt; class_first(&list, &rows, p, one), Some(three));
    assert_eq!(rt; class_first(&list, &rows, p, two), Some(two));
    assert_eq!(rt; class_first(&list, &rows, p, five), None);
    assert!(rt; same_class(&rows, p, one, three));
    assert!(rt; !same_class(&rows, p, one, two));

    let states = States::of(&rows, p);
    assert!(rt; !states.sends(&list, one, four));
    assert!(rt; !states.sends(&list, three, one));
    assert!(rt; states.sends(&list, three, two));
    let asked = NodeList::from_slice(&[four, two]).expect(&rt, "no list");
    assert_eq!(rt; states.asked_by(&list, one), asked);
    let asked = NodeList::from_slice(&[four, three, two]).expect(&rt, "no list");
    assert_eq!(rt; states.asked_by(&list, five), asked);
    Ok(())
}
