//! Tests of `immigrate` by its public calls.

use cluster_types::{ClusterKey, Digest, NoMemory};
use conflict_order::{Body, ValueBytes, ValueFault, Version};
use immigrate::{merge_planned, on_batch, plan_batch};
use record_store::RecordStore;
use std::alloc::Global;
use std::test::Fail;
use wire_messages::{Batch, Records};

fn version(alloc: Global, generation: u32, value: &[u8]) -> Result<Version, ValueFault> {
    Ok(Version {
        lut: 0,
        generation,
        body: Body::Value(ValueBytes::from_slice(alloc, value)?),
    })
}

/// A batch of one record, of the key 2.2 and with that number.
fn batch_of(
    alloc: Global,
    number: u32,
    digest: Digest,
    version: Version,
) -> Result<Batch, NoMemory> {
    let mut records = Records::new(alloc);
    records.push((digest, version))?;
    let key = ClusterKey {
        round: 2,
        principal: 2,
    };
    Ok(Batch {
        key,
        number,
        records,
    })
}

#[test]
fn merges_what_is_newer(rt: HostRuntime) -> Result<(), Fail> {
    let alloc = rt.alloc();
    let mut store = RecordStore::new(alloc)?;
    let held = Digest::new([1; 20]);
    let new = Digest::new([2; 20]);
    store.join_in(held, version(alloc, 2, b"a")?)?;

    let older = batch_of(alloc, 7, held, version(alloc, 1, b"b")?)?;
    let merged = on_batch(alloc, &mut store, &older)?;
    assert_eq!(rt; (merged.number, merged.newer.len()), (7, 0));

    let newer = batch_of(alloc, 8, held, version(alloc, 2, b"b")?)?;
    let merged = on_batch(alloc, &mut store, &newer)?;
    assert_eq!(rt; (merged.number, merged.newer.len()), (8, 1));
    assert!(rt; store.get(&held) == Some(&version(alloc, 2, b"b")?));

    let first = batch_of(alloc, 9, new, version(alloc, 1, b"c")?)?;
    let planned = plan_batch(alloc, &mut store, &first)?;
    assert!(rt; store.get(&new).is_none());
    merge_planned(&mut store, planned);
    assert!(rt; store.get(&new) == Some(&version(alloc, 1, b"c")?));
    assert_eq!(rt; on_batch(alloc, &mut store, &first)?.newer.len(), 0);
    Ok(())
}
