//! Tests of `record_store` by its public calls.
use cluster_types::{ClusterKey, CopyState, Digest, DigestList, PartitionId};
use conflict_order::{Body, Policy, ValueBytes, ValueFault, Version};
use record_store::{Joined, RecordStore, Stamp};
use std::alloc::Global;
use std::test::Fail;

fn version(alloc: Global, lut: u64, generation: u32, value: &[u8]) -> Result<Version, ValueFault> {
    let body = Body::Value(ValueBytes::from_slice(alloc, value)?);
    Ok(Version {
        lut,
        generation,
        body,
    })
}

/// A digest of a partition below 256.
fn digest(partition: u8, last: u8) -> Digest {
    let mut bytes = [0; 20];
    bytes[0] = partition;
    bytes[19] = last;
    Digest::new(bytes)
}

#[test]
fn the_policy_says_which_version_stays(rt: HostRuntime) -> Result<(), Fail> {
    let alloc = rt.alloc();
    let d = digest(0, 1);
    for (by, at_last) in [
        (Policy::Time, Joined::Newer),
        (Policy::Generation, Joined::Kept),
    ] {
        let mut store = RecordStore::with_policy(alloc, by)?;
        assert!(rt; store.get(&d).is_none());
        for (lut, generation, value, became) in [
            (0, 1, b"a", Joined::Newer),
            (0, 1, b"b", Joined::Newer),
            (0, 1, b"b", Joined::Kept),
            (0, 1, b"a", Joined::Kept),
            (0, 2, b"a", Joined::Newer),
            (9, 1, b"b", at_last),
        ] {
            let v = version(alloc, lut, generation, value)?;
            assert_eq!(rt;
                store.would_join(&d, &v),
                became,
                "{by:?}, {lut}.{generation}"
            );
            assert_eq!(rt; store.join_in(d, v)?, became, "{by:?}, {lut}.{generation}");
        }
        let lut = store.get(&d).map(|held| held.lut);
        assert_eq!(rt; lut, Some(if by == Policy::Time { 9 } else { 0 }));
    }
    Ok(())
}

#[test]
fn each_partition_has_its_copy_and_its_stamp(rt: HostRuntime) -> Result<(), Fail> {
    let alloc = rt.alloc();
    let mut store = RecordStore::new(alloc)?;
    let p = PartitionId::new(1).ok_or("no partition")?;
    let q = PartitionId::new(7).ok_or("no partition")?;
    let key = ClusterKey {
        round: 2,
        principal: 3,
    };
    store.stamp(p, key, 5);
    assert_eq!(rt; store.state(p), CopyState::Empty);

    let digests = [digest(1, 4), digest(7, 1), digest(1, 2), digest(1, 3)];
    let mut wanted = DigestList::new(alloc);
    for d in digests {
        wanted.push(d)?;
    }
    store.reserve(&wanted)?;
    for d in digests {
        store.join_in(d, version(alloc, 0, 1, b"a")?)?;
    }
    let whole = CopyState::Whole { key, writes: 5 };
    assert_eq!(rt; store.state(p), whole);
    assert_eq!(rt;
        store.row(alloc)?.entries(),
        [(p, whole), (q, CopyState::Part)].as_slice()
    );
    assert_eq!(rt;
        store.walk(alloc, p, None, 2)?.as_slice(),
        [digest(1, 2), digest(1, 3)].as_slice()
    );
    let rest = store.walk(alloc, p, Some(&digest(1, 2)), 9)?;
    assert_eq!(rt; rest.as_slice(), [digest(1, 3), digest(1, 4)].as_slice());

    store.clear_copy(p);
    assert_eq!(rt; store.state(p), CopyState::Empty);
    store.join_in(digest(1, 9), version(alloc, 0, 1, b"a")?)?;
    assert_eq!(rt; store.state(p), CopyState::Part);
    assert!(rt; store.get(&digest(7, 1)).is_some());
    Ok(())
}

#[test]
fn a_cleared_copy_leaves_the_stamp_of_another(rt: HostRuntime) -> Result<(), Fail> {
    let alloc = rt.alloc();
    let mut store = RecordStore::new(alloc)?;
    let p = PartitionId::new(1).ok_or("no partition")?;
    let q = PartitionId::new(7).ok_or("no partition")?;
    let key = ClusterKey {
        round: 2,
        principal: 3,
    };
    store.stamp(p, key, 5);
    store.stamp(q, key, 8);
    store.join_in(digest(1, 3), version(alloc, 0, 1, b"a")?)?;
    store.join_in(digest(7, 1), version(alloc, 0, 1, b"a")?)?;

    store.clear_copy(p);
    assert!(rt; store.get(&digest(1, 3)).is_none());
    assert_eq!(rt; store.state(p), CopyState::Empty);
    assert_eq!(rt; store.state(q), CopyState::Whole { key, writes: 8 });
    Ok(())
}
