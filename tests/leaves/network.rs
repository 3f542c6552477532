//! The network by its public calls.
use cluster_types::{Bytes, Groups, NoMemory, NodeId, NodeList};
use net_script::{FLIGHT_LIMIT, Net, Posted};
use std::alloc::Global;
use std::process::Abort;
use std::test::Fail;

/// Sends that many empty messages, from node 1 to each of ten nodes in turn.
fn send_many(alloc: Global, net: &mut Net, n: u64) -> Result<(), NoMemory> {
    for i in 0..n {
        net.send(1, (i % 10) as u16, Bytes::new(alloc))?;
    }
    Ok(())
}

#[test]
fn keeps_as_many_messages_as_may_be(rt: HostRuntime) -> Result<(), Fail> {
    let mut net = Net::new(rt.alloc());
    send_many(rt.alloc(), &mut net, 262_144)?;
    assert_eq!(rt; net.len(), FLIGHT_LIMIT);
    assert_eq!(rt; net.next(), 262_145);

    let lost = net.send(1, 2, Bytes::new(rt.alloc()))?;
    assert_eq!(rt; lost, Posted::Full(262_145));
    assert_eq!(rt; net.len(), FLIGHT_LIMIT);
    assert!(rt; net.get(262_145).is_none());

    assert!(rt; net.take(100).is_some());
    let kept = net.send(1, 2, Bytes::new(rt.alloc()))?;
    assert_eq!(rt; kept, Posted::Kept(262_146));
    assert_eq!(rt; net.len(), FLIGHT_LIMIT);
    Ok(())
}

#[test]
fn takes_messages_in_any_order(rt: HostRuntime) -> Result<(), Fail> {
    let mut net = Net::new(rt.alloc());
    net.reserve(5)?;
    send_many(rt.alloc(), &mut net, 4)?;
    let bytes = Bytes::from_slice(rt.alloc(), b"ab")?;
    assert_eq!(rt; net.send(7, 0, bytes)?, Posted::Kept(5));

    let rows: [(u64, Option<u16>, &[u64]); 7] = [
        (3, Some(2), &[1, 2, 4, 5]),
        (3, None, &[1, 2, 4, 5]),
        (0, None, &[1, 2, 4, 5]),
        (6, None, &[1, 2, 4, 5]),
        (1, Some(0), &[2, 4, 5]),
        (2, Some(1), &[4, 5]),
        (4, Some(3), &[5]),
    ];
    for (id, to, left) in rows {
        assert_eq!(rt; net.get(id).map(|flying| flying.to), to, "at {id}");
        assert_eq!(rt; net.take(id).map(|flying| flying.to), to, "at {id}");
        assert!(rt; net.get(id).is_none(), "at {id}");
        assert_eq!(rt; net.ids(rt.alloc())?.as_slice(), left, "after {id}");
    }

    let last = net.take(5).ok_or(NoMemory)?;
    assert_eq!(rt; (last.from, last.to), (7, 0));
    assert_eq!(rt; last.bytes.as_slice(), b"ab".as_slice());
    assert_eq!(rt; net.len(), 0);
    Ok(())
}

fn node(rt: &impl Abort, n: u16) -> NodeId {
    NodeId::new(n).expect(rt, "an id")
}

#[test]
fn tells_which_endpoints_are_apart(rt: HostRuntime) {
    let mut net = Net::new(rt.alloc());
    assert!(rt; !net.apart(1, 2));

    let mut left = NodeList::new();
    left.push(node(&rt, 1));
    let mut right = NodeList::new();
    right.push(node(&rt, 2));
    right.push(node(&rt, 3));
    net.set_groups(Groups::from_lists(&[left, right]));
    for (a, b, apart) in [
        (1, 2, true),
        (3, 1, true),
        (2, 3, false),
        (1, 1, false),
        (0, 1, false),
        (2, 0, false),
        (0, 0, false),
    ] {
        assert_eq!(rt; net.apart(a, b), apart, "at {a} and {b}");
    }
}
