use super::made::node;
use cluster_types::{
    Bytes, Digest, DigestList, Groups, IdList, ListFault, Member, MemberList, Members,
    MembersFault, NodeId, NodeList, Role,
};
use item_lists::OwnedList;
use std::test::Fail;

const RACK_ONE: Role = Role {
    rack: 1,
    quiesced: true,
};

#[test]
fn keeps_distinct_nodes(rt: HostRuntime) {
    let one = node(&rt, 1);
    let two = node(&rt, 2);
    assert_eq!(rt;
        NodeList::from_slice(&[one; 17]),
        Err(ListFault::TooMany(17))
    );
    assert_eq!(rt;
        NodeList::from_slice(&[two, one, two, one]),
        Err(ListFault::Repeated(2))
    );

    let mut list = NodeList::new();
    assert!(rt; list.is_empty());
    list.push(two);
    assert_eq!(rt; list.len(), 1);
    assert_eq!(rt; NodeList::from_slice(&[two]), Ok(list));
    assert_eq!(rt; list.get(0), Some(&two));
    assert_eq!(rt; list.get(1), None);
    assert!(rt; list.contains(two) && !list.contains(one));
    assert!(rt; list.without(two).is_empty());
}

#[test]
fn keeps_members_in_falling_order(rt: HostRuntime) -> Result<(), Fail> {
    let one = node(&rt, 1);
    let two = node(&rt, 2);
    assert_eq!(rt; Members::from_slice(&[]), Err(MembersFault::Empty));
    assert_eq!(rt;
        Members::from_slice(&[one; 17]),
        Err(MembersFault::TooMany(17))
    );
    assert_eq!(rt;
        Members::from_slice(&[two, two]),
        Err(MembersFault::OutOfOrder(1))
    );

    let plain = Members::from_slice(&[two, one])?;
    assert_eq!(rt; plain.len(), 2);
    assert_eq!(rt; plain.get(1), Some(&one));
    assert_eq!(rt; plain.role(one), Some(Role::PLAIN));
    assert_eq!(rt; plain.role(node(&rt, 3)), None);
    assert!(rt; plain.contains(two));
    assert_eq!(rt; plain.ids().as_slice(), [two, one].as_slice());

    let racked = Members::with_roles(&[
        Member::plain(two),
        Member {
            id: one,
            role: RACK_ONE,
        },
    ])?;
    assert_eq!(rt; racked.role(one), Some(RACK_ONE));
    assert!(rt; plain != racked);
    Ok(())
}

#[test]
fn keeps_members_in_any_order(rt: HostRuntime) -> Result<(), Fail> {
    let member = Member {
        id: node(&rt, 1),
        role: RACK_ONE,
    };
    let other = Member::plain(node(&rt, 2));
    assert_eq!(rt;
        MemberList::from_slice(&[member, other, member]),
        Err(ListFault::Repeated(2))
    );
    let list = MemberList::from_slice(&[member, other])?;
    assert_eq!(rt; list.len(), 2);
    assert_eq!(rt; list.get(0), Some(&member));
    assert!(rt; MemberList::new().is_empty() && list != MemberList::new());
    Ok(())
}

#[test]
fn tells_groups_apart(rt: HostRuntime) {
    let one = node(&rt, 1);
    let two = node(&rt, 2);
    let mut left = NodeList::new();
    left.push(one);
    let mut right = NodeList::new();
    right.push(two);
    let groups = Groups::from_lists(&[left, right]);
    assert_eq!(rt; groups.len(), 2);
    assert_eq!(rt; groups.get(1), Some(&right));
    assert!(rt; groups.apart(one, two) && !groups.apart(one, one));
    assert!(rt; !groups.apart(one, node(&rt, 3)));
}

#[test]
fn takes_bytes_from_the_front(rt: HostRuntime) -> Result<(), Fail> {
    let mut bytes = Bytes::from_slice(rt.alloc(), b"ab")?;
    bytes.push(b'c')?;
    bytes.extend_from_slice(b"de")?;
    assert_eq!(rt; bytes.take_first(), Some(b'a'));
    let copy = bytes.copy(rt.alloc())?;
    assert_eq!(rt; copy.as_slice(), b"bcde".as_slice());
    assert_eq!(rt; copy.get(4), None);
    Ok(())
}

#[test]
fn takes_items_from_the_front(rt: HostRuntime) -> Result<(), Fail> {
    let mut ids = IdList::new(rt.alloc());
    ids.push(7)?;
    assert_eq!(rt; ids.copy(rt.alloc())?.get(0), Some(&7));
    assert_eq!(rt; ids.take_first(), Some(7));
    assert_eq!(rt; ids.take_first(), None);

    let mut digests = DigestList::new(rt.alloc());
    digests.push(Digest::new([9; 20]))?;
    assert_eq!(rt; digests.copy(rt.alloc())?.len(), 1);
    assert_eq!(rt; digests.take_first(), Some(Digest::new([9; 20])));
    assert!(rt; digests.is_empty());
    Ok(())
}

fn pair(first: u8, second: u8) -> (Digest, Digest) {
    (Digest::new([first; 20]), Digest::new([second; 20]))
}

#[test]
fn takes_pairs_from_the_front(rt: HostRuntime) -> Result<(), Fail> {
    let mut pairs = OwnedList::new(rt.alloc());
    assert!(rt; pairs.is_empty());
    pairs.push(pair(1, 2))?;
    pairs.push(pair(3, 4))?;
    let copy = pairs.copy(rt.alloc())?;
    assert_eq!(rt; copy, pairs);
    assert_eq!(rt; pairs.take_first(), Some(pair(1, 2)));
    assert_eq!(rt; pairs.len(), 1);
    assert_eq!(rt; pairs.get(0), copy.get(1));
    Ok(())
}
