//! Ids, partitions and keys of plain numbers.

use cluster_types::{ClusterKey, NodeId, PartitionId};
use std::process::Abort;

pub fn node(rt: &impl Abort, n: u16) -> NodeId {
    NodeId::new(n).expect(rt, "an id")
}

pub fn partition(rt: &impl Abort, n: u16) -> PartitionId {
    PartitionId::new(n).expect(rt, "a partition")
}

pub fn key(rt: &impl Abort, round: u64, principal: u16) -> ClusterKey {
    ClusterKey::new(round, principal).expect(rt, "a key")
}
