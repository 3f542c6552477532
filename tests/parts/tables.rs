//! Tests of `client_map` by its public calls.
use client_map::ClientMap;
use cluster_types::{Boxed, ClusterKey, NoMemory, NodeId, PartitionId, Row4096};
use std::alloc::Global;
use std::process::Abort;
use std::test::Fail;
use wire_messages::{BoxedIds, MapTable};

fn node(rt: &impl Abort, n: u16) -> NodeId {
    NodeId::new(n).expect(rt, "no node")
}

/// A table of that key in which one node acts everywhere and that partition alone has moved.
fn table(
    alloc: Global,
    round: u64,
    acting: NodeId,
    moved: Option<PartitionId>,
) -> Result<MapTable, NoMemory> {
    let mut row = Row4096::new();
    if let Some(p) = moved {
        row.put(p);
    }
    Ok(MapTable {
        key: ClusterKey {
            round,
            principal: 2,
        },
        ids: BoxedIds::new(alloc, [acting; 4096])?,
        moved: Boxed::new(alloc, row)?,
    })
}

#[test]
fn the_greatest_key_and_then_a_move_decide(rt: HostRuntime) -> Result<(), Fail> {
    let alloc = rt.alloc();
    let p = PartitionId::new(7).expect(&rt, "no partition");
    let q = PartitionId::new(4095).expect(&rt, "no partition");
    let mut map = ClientMap::new(alloc)?;
    assert!(rt; map.node_of(p).is_none());
    for (round, acting, moved, at_p, at_q) in [
        (2, 1, None, 1, 1),
        (2, 3, None, 1, 1),
        (2, 2, Some(p), 2, 1),
        (2, 3, Some(p), 2, 1),
        (1, 3, Some(q), 2, 1),
        (3, 4, None, 4, 4),
    ] {
        map.refresh(&table(alloc, round, node(&rt, acting), moved)?);
        assert_eq!(rt; map.node_of(p), Some(node(&rt, at_p)));
        assert_eq!(rt; map.node_of(q), Some(node(&rt, at_q)));
    }
    Ok(())
}
