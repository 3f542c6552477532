use super::made::{key, node, partition};
use cluster_types::{ClusterKey, Digest, NodeId, PartitionId, partition_of};
use std::test::Fail;

#[test]
fn refuses_numbers_out_of_range(rt: HostRuntime) {
    assert_eq!(rt; NodeId::new(0), None);
    assert_eq!(rt; NodeId::new(65_535).map(|n| n.number()), Some(65_535));
    assert_eq!(rt; PartitionId::new(4096), None);
    assert_eq!(rt; PartitionId::new(4095).map(|p| p.number()), Some(4095));

    let last_round = (1 << 48) - 1;
    for (round, principal) in [(0, 1), (last_round + 1, 1), (1, 0)] {
        assert_eq!(rt; ClusterKey::new(round, principal), None);
    }
    let last = key(&rt, last_round, 1);
    assert_eq!(rt; last.next(node(&rt, 2)), None);
    assert_eq!(rt; ClusterKey::NONE.next(node(&rt, 2)), Some(key(&rt, 1, 2)));
}

#[test]
fn orders_keys_by_round_first(rt: HostRuntime) {
    assert!(rt; key(&rt, 1, 2) < key(&rt, 2, 1));
    assert!(rt; key(&rt, 1, 1) < key(&rt, 1, 2));
    assert!(rt; ClusterKey::NONE < key(&rt, 1, 1));
}

#[test]
fn finds_the_partition_of_a_digest(rt: HostRuntime) -> Result<(), Fail> {
    for (low, high, wanted, text) in [
        (0xff, 0xff, 4095, "ffff000000000000000000000000000000000000"),
        (0x00, 0x10, 0, "0010000000000000000000000000000000000000"),
    ] {
        let mut bytes = [0; 20];
        bytes[0] = low;
        bytes[1] = high;
        let digest = Digest::new(bytes);
        assert_eq!(rt; partition_of(&digest), partition(&rt, wanted));
        assert_eq!(rt; digest.to_string(rt.alloc())?.as_str(), text);
        assert!(rt; digest > Digest::new([0; 20]));
        assert_eq!(rt; digest.bytes()[1], high);
    }
    Ok(())
}

#[test]
fn writes_names_as_text(rt: HostRuntime) -> Result<(), Fail> {
    assert_eq!(rt; node(&rt, 16).to_string(rt.alloc())?.as_str(), "16");
    assert_eq!(rt;
        partition(&rt, 4095).to_string(rt.alloc())?.as_str(),
        "4095"
    );
    assert_eq!(rt; key(&rt, 2, 1).to_string(rt.alloc())?.as_str(), "2.1");
    assert_eq!(rt; ClusterKey::NONE.to_string(rt.alloc())?.as_str(), "0.0");
    Ok(())
}
