//! Tests of `heartbeat` by its public calls.
use cluster_types::{ClusterKey, Members, NodeId, NodeList, Role};
use heartbeat::Adjacency;
use node_rules::Beat;
use std::process::Abort;
use std::test::Fail;

fn node(rt: &impl Abort, n: u16) -> NodeId {
    NodeId::new(n).expect(rt, "no node")
}

/// A heartbeat of a node without a view that hears these.
fn beat(rt: &impl Abort, hears: &[NodeId]) -> Beat {
    Beat {
        view: ClusterKey::NONE,
        promised: ClusterKey::NONE,
        hears: NodeList::from_slice(hears).expect(rt, "no list"),
        role: Role::PLAIN,
    }
}

#[test]
fn a_neighbour_hears_the_node_and_is_forgotten_after_ten_ticks(
    rt: HostRuntime,
) -> Result<(), Fail> {
    let me = node(&rt, 1);
    let other = node(&rt, 2);
    let alone = Members::from_slice(&[me]).expect(&rt, "no members");
    let both = Members::from_slice(&[other, me]).expect(&rt, "no members");
    let mut hearing = Adjacency::new(me, Role::PLAIN);
    hearing.heard(other, &beat(&rt, &[]));
    assert!(rt; hearing.neighbours() == alone);
    hearing.heard(other, &beat(&rt, &[me]));
    assert!(rt; hearing.neighbours() == both);
    assert!(rt; hearing.all_show(ClusterKey::NONE));
    for _ in 0..9 {
        hearing.tick();
    }
    assert!(rt; hearing.hears().contains(other));
    assert_eq!(rt; hearing.quiet(), 2);
    let mut kept = hearing.copy();
    kept.entered();
    assert_eq!(rt; kept.quiet(), 0);
    hearing.tick();
    assert!(rt; hearing.hears().is_empty());
    assert!(rt; hearing.neighbours() == alone);
    assert_eq!(rt; hearing.quiet(), 0);
    kept.stopped();
    assert!(rt; kept.hears().is_empty());
    Ok(())
}

#[test]
fn a_changed_role_changes_the_neighbours(rt: HostRuntime) -> Result<(), Fail> {
    let mut hearing = Adjacency::new(node(&rt, 1), Role::PLAIN);
    hearing.tick();
    hearing.tick();
    assert_eq!(rt; hearing.quiet(), 1);
    hearing.set_role(Role {
        rack: 0,
        quiesced: true,
    });
    hearing.tick();
    assert_eq!(rt; hearing.quiet(), 0);
    Ok(())
}
