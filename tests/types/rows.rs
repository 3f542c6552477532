ghost use Rattle.std.specs.Prelude.{◌==◌, true};

use super::made::{key, node, partition};
use cluster_types::{
    CopyState, MapEntry, MapView, NodeId, NodeList, PartitionId, Row4096, StateRow,
};
use std::process::Abort;
use std::test::Fail;

#[test]
fn joins_bits(rt: HostRuntime) {
    let mut row = Row4096::new();
    let mut other = Row4096::new();
    row.put(partition(&rt, 0));
    other.put(partition(&rt, 4095));
    row.or(&other);
    for (p, wanted) in [(0, true), (1, false), (4095, true)] {
        assert_eq!(rt; row.get(partition(&rt, p)), wanted);
    }
    assert!(rt; !other.get(partition(&rt, 0)));
}

/// A row with these bits alone.
fn row_of(rt: &impl Abort, numbers: &[u16]) -> Row4096 {
    let mut row = Row4096::new();
    for number in numbers {
        row.put(partition(rt, *number));
    }
    row
}

/// The number of the first partition from that one on whose bit is set.
fn next(row: &Row4096, from: u16) -> Option<u16> {
    Some(row.next_set(from)?.number())
}

#[test]
fn finds_the_next_bit(rt: HostRuntime) {
    let row = row_of(&rt, &[3, 5, 64, 4095]);
    for (from, wanted) in [
        (0, Some(3)),
        (3, Some(3)),
        (4, Some(5)),
        (6, Some(64)),
        (65, Some(4095)),
        (4096, None),
    ] {
        assert_eq!(rt; next(&row, from), wanted);
    }
    assert_eq!(rt; next(&row.complement(), 3), Some(4));
    assert_eq!(rt; next(&Row4096::new(), 0), None);
}

#[test]
fn tells_two_rows_apart(rt: HostRuntime) {
    let a = row_of(&rt, &[3, 5, 64]);
    let b = row_of(&rt, &[5, 64, 4095]);
    assert!(rt; a.lacks(&b) && b.lacks(&a) && !a.lacks(&a));
    assert!(rt; !a.lacks(&row_of(&rt, &[64])));
    assert!(rt; a.difference(&b) == row_of(&rt, &[3]));
    assert!(rt; b.difference(&a) == row_of(&rt, &[4095]));
    assert!(rt; a.symmetric_difference(&b) == row_of(&rt, &[3, 4095]));
    assert!(rt; a.complement().complement() == a);
}

#[test]
fn a_row_is_made_of_its_bytes(rt: HostRuntime) {
    let row = row_of(&rt, &[3, 8, 4095]);
    let bytes = row.as_bytes();
    for (place, wanted) in [(0, 8), (1, 1), (2, 0), (511, 128)] {
        assert_eq!(rt; bytes[place], wanted);
    }
    assert!(rt; Row4096::from_bytes(bytes) == row);
}

#[test]
fn keeps_the_states_that_are_not_empty(rt: HostRuntime) -> Result<(), Fail> {
    let whole = CopyState::Whole {
        key: key(&rt, 1, 2),
        writes: 0,
    };
    let mut row = StateRow::new(rt.alloc());
    row.add(partition(&rt, 1), CopyState::Part)?;
    row.add(partition(&rt, 4095), whole)?;
    let copy = row.copy(rt.alloc())?;
    assert_eq!(rt; copy.len(), 2);
    assert_eq!(rt; copy.entries()[1].1, whole);
    for (p, wanted) in [
        (0, CopyState::Empty),
        (1, CopyState::Part),
        (4094, CopyState::Empty),
        (4095, whole),
    ] {
        assert_eq!(rt; copy.get(partition(&rt, p)), wanted);
    }
    Ok(())
}

/// A map on which one node acts for every partition, and sends its copy to all others.
#[derive(Drop)]
struct Acted {
    list: NodeList,
    acting: NodeId,
}

impl MapView for Acted {
    ghost entry = { λ view p. record { list = view.list; acting = view.acting; all_empty = true } };

    ghost sends_to = { λ view p from to. from == view.acting };

    ghost asked_by = { λ view p by. view.list };

    fn map(&self, _p: PartitionId) -> MapEntry {
        MapEntry {
            list: self.list,
            acting: self.acting,
            all_empty: true,
        }
    }

    fn sends(&self, _p: PartitionId, from: NodeId, _to: NodeId) -> bool {
        from == self.acting
    }

    fn asks(&self, _p: PartitionId, _by: NodeId) -> NodeList {
        self.list
    }
}

/// Whether the first node sends to the second and not back.
fn sends_one_way<X: MapView>(x: &X, p: PartitionId, from: NodeId, to: NodeId) -> bool {
    x.sends(p, from, to) && !x.sends(p, to, from)
}

/// How many nodes the acting node asks.
fn asked_by_acting<X: MapView>(x: &X, p: PartitionId) -> usize {
    x.asks(p, x.map(p).acting).len()
}

#[test]
fn a_map_answers_through_a_bound(rt: HostRuntime) -> Result<(), Fail> {
    let (first, second) = (node(&rt, 1), node(&rt, 2));
    let view = Acted {
        list: NodeList::from_slice(&[first, second])?,
        acting: second,
    };
    let p = partition(&rt, 0);
    assert!(rt; sends_one_way(&view, p, second, first));
    assert!(rt; !sends_one_way(&view, p, first, second));
    assert_eq!(rt; asked_by_acting(&view, p), 2);
    assert!(rt; view.map(p).all_empty);
    Ok(())
}
