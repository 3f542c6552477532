//! Worked rows of `partition_lists`, and its public calls.
use cluster_types::{Member, Members, NodeId, NodeList, PartitionId, Role};
use partition_lists::{Lists, Ranks, fnv1a, is_replica, list, one_at_a_time, place, replicas};
use std::alloc::Global;
use std::test::Fail;

fn node(number: u16) -> Result<NodeId, &'static str> {
    NodeId::new(number).ok_or("no node")
}

fn partition(number: u16) -> Result<PartitionId, &'static str> {
    PartitionId::new(number).ok_or("no partition")
}

fn ids(alloc: Global, numbers: &[u16]) -> Result<Vec<NodeId>, Fail> {
    let mut ids = Vec::new(alloc);
    for number in numbers {
        ids.push(node(*number)?)?;
    }
    Ok(ids)
}

fn nodes(alloc: Global, numbers: &[u16]) -> Result<NodeList, Fail> {
    let ids = ids(alloc, numbers)?;
    Ok(NodeList::from_slice(&ids).map_err(|_| "no list")?)
}

/// The members of these numbers, racks and marks.
fn members(alloc: Global, rows: &[(u16, u8, bool)]) -> Result<Members, Fail> {
    let mut list = Vec::new(alloc);
    for (number, rack, quiesced) in rows {
        list.push(Member {
            id: node(*number)?,
            role: Role {
                rack: *rack,
                quiesced: *quiesced,
            },
        })?;
    }
    Ok(Members::with_roles(&list).map_err(|_| "no members")?)
}

fn plain_members(alloc: Global, numbers: &[u16]) -> Result<Members, Fail> {
    let ids = ids(alloc, numbers)?;
    Ok(Members::from_slice(&ids).map_err(|_| "no members")?)
}

#[test]
fn the_hashes_of_known_texts(rt: HostRuntime) {
    let rows = [
        ("", 0xcbf2_9ce4_8422_2325, 0),
        ("a", 0xaf63_dc4c_8601_ec8c, 0xca2e_9442),
        ("foobar", 0x8594_4171_f739_67e8, 0xf952_fde7),
        (
            "The quick brown fox jumps over the lazy dog",
            0xf3f9_b7f5_e7e4_7110,
            0x519e_91f5,
        ),
    ];
    for (text, fnv, jenkins) in rows {
        assert_eq!(rt; fnv1a(text.as_bytes()), fnv, "{text}");
        assert_eq!(rt; one_at_a_time(text.as_bytes()), jenkins, "{text}");
    }
}

#[test]
fn the_places_of_nodes(rt: HostRuntime) -> Result<(), Fail> {
    let rows = [
        (1, 0, 3_264_907_536),
        (7, 1234, 3_768_369_268),
        (65_535, 4095, 4_037_634_371),
    ];
    for (n, p, expected) in rows {
        assert_eq!(rt; place(node(n)?, partition(p)?), expected, "{n} {p}");
    }
    Ok(())
}

const SIXTEEN: [u16; 16] = [16, 15, 14, 13, 12, 11, 10, 9, 8, 7, 6, 5, 4, 3, 2, 1];

const FIFTEEN: [u16; 15] = [16, 15, 14, 13, 12, 11, 10, 9, 8, 6, 5, 4, 3, 2, 1];

#[test]
fn sixteen_nodes_have_four_replicas(rt: HostRuntime) -> Result<(), Fail> {
    let all = plain_members(rt.alloc(), &SIXTEEN)?;
    let rows = [
        (0, [12, 8, 7, 11, 14, 3, 15, 2, 9, 1, 13, 4, 16, 5, 6, 10]),
        (1, [11, 15, 3, 14, 13, 1, 10, 16, 8, 7, 12, 4, 9, 5, 2, 6]),
        (2, [2, 9, 14, 7, 13, 10, 8, 3, 15, 16, 12, 5, 4, 6, 11, 1]),
    ];
    for (number, expected) in rows {
        let p = partition(number)?;
        let found = list(&all, p);
        assert_eq!(rt; found, nodes(rt.alloc(), &expected)?, "{number}");
        assert_eq!(rt;
            replicas(&found, 4),
            nodes(rt.alloc(), &expected[..4])?,
            "{number}"
        );
        assert_eq!(rt; replicas(&found, 255), found, "{number}");
        for (place, n) in expected.iter().enumerate() {
            let replica = is_replica(node(*n)?, &all, p, 4);
            assert_eq!(rt; replica, place < 4, "{number} {n}");
        }
    }
    Ok(())
}

#[test]
fn a_list_without_a_node_is_the_former_one_less_it(rt: HostRuntime) -> Result<(), Fail> {
    let all = Ranks::of(&plain_members(rt.alloc(), &SIXTEEN)?);
    let fewer = Ranks::of(&plain_members(rt.alloc(), &FIFTEEN)?);
    let rows = [
        (0, [12, 8, 11, 14, 3, 15, 2, 9, 1, 13, 4, 16, 5, 6, 10]),
        (1, [11, 15, 3, 14, 13, 1, 10, 16, 8, 12, 4, 9, 5, 2, 6]),
        (4095, [8, 16, 12, 5, 4, 10, 14, 11, 9, 6, 2, 13, 3, 15, 1]),
    ];
    for (number, expected) in rows {
        let p = partition(number)?;
        let left = nodes(rt.alloc(), &expected)?;
        assert_eq!(rt; fewer.list(p), left, "{number}");
        assert_eq!(rt; all.list(p).without(node(7)?), left, "{number}");
    }
    Ok(())
}

#[test]
fn a_rack_stands_again_behind_those_of_other_racks(rt: HostRuntime) -> Result<(), Fail> {
    let rows = [
        (1, false, [3, 1, 4, 2]),
        (2, false, [2, 3, 4, 1]),
        (1, true, [3, 1, 4, 2]),
    ];
    for (p, quiesced, expected) in rows {
        let m = members(
            rt.alloc(),
            &[
                (4, 0, false),
                (3, 2, false),
                (2, 1, quiesced),
                (1, 1, false),
            ],
        )?;
        assert_eq!(rt;
            list(&m, partition(p)?),
            nodes(rt.alloc(), &expected)?,
            "{p}"
        );
    }
    Ok(())
}

#[test]
fn two_racks_stand_first_and_a_quiesced_node_last(rt: HostRuntime) -> Result<(), Fail> {
    let two_racks = Ranks::of(&members(
        rt.alloc(),
        &[(4, 2, false), (3, 2, false), (2, 1, false), (1, 1, false)],
    )?);
    let one_quiesced = Ranks::of(&members(
        rt.alloc(),
        &[(4, 2, false), (3, 2, true), (2, 1, false), (1, 1, false)],
    )?);
    let rows = [
        (0, [3, 2, 1, 4], [2, 4, 1, 3]),
        (1, [3, 1, 4, 2], [1, 4, 2, 3]),
        (2, [2, 3, 4, 1], [2, 4, 1, 3]),
        (4095, [4, 2, 3, 1], [4, 2, 1, 3]),
    ];
    for (number, none_quiesced, quiesced) in rows {
        let p = partition(number)?;
        let expected = nodes(rt.alloc(), &none_quiesced)?;
        assert_eq!(rt; two_racks.list(p), expected, "{number}");
        let expected = nodes(rt.alloc(), &quiesced)?;
        assert_eq!(rt; one_quiesced.list(p), expected, "{number}");
    }
    Ok(())
}

#[test]
fn the_lists_of_a_view_are_those_of_its_partitions(rt: HostRuntime) -> Result<(), Fail> {
    let alloc = rt.alloc();
    for numbers in [[3, 2, 1].as_slice(), [7].as_slice()] {
        let m = plain_members(alloc, numbers)?;
        let lists = Lists::of(alloc, &m)?.copy(alloc)?;
        for number in [0, 1, 7, 4095] {
            let p = partition(number)?;
            let wanted = list(&m, p);
            assert_eq!(rt; lists.list(p), wanted);
            assert_eq!(rt; Some(&lists.master(p)), wanted.get(0));
            for n in m.ids().as_slice() {
                assert_eq!(rt; lists.is_replica(*n, p, 2), is_replica(*n, &m, p, 2));
            }
        }
    }
    Ok(())
}
