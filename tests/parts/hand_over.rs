//! Tests of `emigrate` by its public calls.
ghost use Rattle.std.specs.Prelude.{◌==◌, ◌&&◌, [], false};

use cluster_types::{
    ClusterKey, CopyState, Digest, MapEntry, MapView, Members, NoMemory, NodeId, NodeList,
    PartitionId, Row4096, partition_of,
};
use conflict_order::{Body, ValueBytes, ValueFault, Version};
use emigrate::{AckStep, Emigration, drop_copy};
use progress::{Progress, SettledBit};
use record_store::RecordStore;
use std::alloc::Global;
use std::process::Abort;
use std::test::Fail;

/// A view in which one node sends all its records to another.
#[derive(Clone, Copy)]
struct OneSends {
    from: NodeId,
    to: NodeId,
}

impl MapView for OneSends {
    ghost entry = { λ v _. record { list = []; acting = v.from; all_empty = false } };

    ghost sends_to = { λ v _ from to. (from == v.from) && (to == v.to) };

    ghost asked_by = { λ _ _ _. [] };

    fn map(&self, _: PartitionId) -> MapEntry {
        MapEntry {
            list: NodeList::new(),
            acting: self.from,
            all_empty: false,
        }
    }

    fn sends(&self, _: PartitionId, from: NodeId, to: NodeId) -> bool {
        from == self.from && to == self.to
    }

    fn asks(&self, _: PartitionId, _: NodeId) -> NodeList {
        NodeList::new()
    }
}

fn node(rt: &impl Abort, n: u16) -> NodeId {
    NodeId::new(n).expect(rt, "an id")
}

fn members(rt: &impl Abort) -> Members {
    Members::from_slice(&[node(rt, 2), node(rt, 1)]).expect(rt, "members")
}

fn version(alloc: Global) -> Result<Version, ValueFault> {
    Ok(Version {
        lut: 0,
        generation: 1,
        body: Body::Value(ValueBytes::from_slice(alloc, b"a")?),
    })
}

/// The node 2 hands on to the node 1 what the store holds.
fn begun(alloc: Global, rt: &impl Abort, store: &RecordStore) -> Result<Emigration, NoMemory> {
    let view = OneSends {
        from: node(rt, 2),
        to: node(rt, 1),
    };
    let key = ClusterKey {
        round: 2,
        principal: 2,
    };
    Emigration::begin(alloc, store, &view, &members(rt), key, node(rt, 2))
}

/// Sends the next batch to the node 1, and answers how many records it has.
fn send(
    alloc: Global,
    rt: &impl Abort,
    batches: &mut Emigration,
    store: &RecordStore,
) -> Result<usize, Fail> {
    let to = node(rt, 1);
    assert!(rt; batches.target(to).is_some());
    let Some(batch) = batches.next_batch(alloc, to, store)? else {
        return Err(Fail::from("nothing is sent"));
    };
    let count = batch.records.len();
    batches.sent(to, batch);
    Ok(count)
}

/// That the partition's settling was written, as the node 2 hears it.
fn settled(alloc: Global, rt: &impl Abort, p: PartitionId) -> Result<SettledBit, Fail> {
    let mut known = Progress::new(alloc, &members(rt), node(rt, 2))?;
    let mut row = Row4096::new();
    row.put(p);
    let from = node(rt, 1);
    assert!(rt; known.others().contains(from));
    known.heard(from, &Row4096::new(), &Row4096::new(), &row);
    Ok(known.knows_settled(p).expect(rt, "it is settled"))
}

/// A store with one record.
fn one_record(alloc: Global, digest: Digest) -> Result<RecordStore, Fail> {
    let mut store = RecordStore::new(alloc)?;
    store.join_in(digest, version(alloc)?)?;
    Ok(store)
}

#[test]
fn a_batch_is_acknowledged_by_its_number(rt: HostRuntime) -> Result<(), Fail> {
    let alloc = rt.alloc();
    let store = one_record(alloc, Digest::new([7; 20]))?;
    let mut batches = begun(alloc, &rt, &store)?;
    assert_eq!(rt; send(alloc, &rt, &mut batches, &store)?, 1);
    let one = node(&rt, 1);
    assert_eq!(rt; batches.on_ack(one, 2), AckStep::Spent);
    assert_eq!(rt; batches.on_ack(one, 1), AckStep::Taken);
    assert_eq!(rt; batches.on_ack(one, 1), AckStep::Spent);
    Ok(())
}

#[test]
fn a_copy_is_dropped_once_it_is_acknowledged(rt: HostRuntime) -> Result<(), Fail> {
    let alloc = rt.alloc();
    let digest = Digest::new([7; 20]);
    let p = partition_of(&digest);
    let mut store = one_record(alloc, digest)?;
    let mut batches = begun(alloc, &rt, &store)?;
    send(alloc, &rt, &mut batches, &store)?;
    let early = settled(alloc, &rt, p)?;
    assert!(rt; batches.permit(p, early).is_none());
    batches.on_ack(node(&rt, 1), 1);
    let bit = settled(alloc, &rt, p)?;
    let permit = batches.permit(p, bit).expect(&rt, "all is acknowledged");
    drop_copy(&mut store, permit);
    assert_eq!(rt; store.state(p), CopyState::Empty);
    Ok(())
}
