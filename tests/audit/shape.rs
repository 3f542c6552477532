//! What the shape of a journal asks.
use super::journals::{MET, Row, audits};
use audit_core::Law;
use std::test::Fail;

const THE_HEADER_STANDS_FIRST_AND_DECLARES_A_NODE_ONCE: [Row; 2] = [
    (
        "node 3
",
        Some((Law::Shape, 16)),
    ),
    (
        "factor 1
",
        Some((Law::Shape, 16)),
    ),
];

const LINES_NAME_DECLARED_NODES: [Row; 7] = [
    (
        "tick 3
",
        Some((Law::Shape, 16)),
    ),
    (
        "deliver 1 0 2
",
        None,
    ),
    (
        "deliver 1 3 2
",
        Some((Law::Shape, 16)),
    ),
    (
        "refused 1 ffff000000000000000000000000000000000000 notmaster 3
",
        Some((Law::Shape, 16)),
    ),
    (
        "groups 1 | 2 3
",
        Some((Law::Shape, 16)),
    ),
    (
        "place 7 3,2
",
        Some((Law::Shape, 16)),
    ),
    (
        "enter 1 3.1 3,1
",
        Some((Law::Shape, 16)),
    ),
];

const A_NODE_ENTERS_ONCE_AND_WITH_THE_SAME_MEMBERS: [Row; 5] = [
    (
        "enter 1 2.2 2,1
",
        Some((Law::Shape, 16)),
    ),
    (
        "enter 1 3.1 2
",
        Some((Law::Shape, 16)),
    ),
    (
        "enter 1 3.1 2,1
enter 2 3.1 2
",
        Some((Law::Shape, 17)),
    ),
    (
        "enter 1 3.1 2/1,1
enter 2 3.1 2,1
",
        Some((Law::Shape, 17)),
    ),
    (
        "enter 1 3.1 2/1,1
enter 2 3.1 2/1,1
",
        None,
    ),
];

const A_LINE_OF_A_VIEW_FOLLOWS_ITS_ENTRY: [Row; 5] = [
    (
        "settled 1 3.1 4095
",
        Some((Law::Shape, 16)),
    ),
    (
        "doubt 1 3.1 1
",
        None,
    ),
    (
        "enter 1 3.1 2,1
exchanged 1 3.1
",
        Some((Law::Shape, 17)),
    ),
    (
        "enter 1 3.1 2,1
map 1 3.1 4095 2,1 2
",
        Some((Law::Shape, 17)),
    ),
    (
        "enter 1 3.1 2,1
value 1 3.1 1 ffff000000000000000000000000000000000000 0.1=61
",
        None,
    ),
];

#[test]
fn the_header_stands_first_and_declares_a_node_once(rt: HostRuntime) -> Result<(), Fail> {
    audits(
        &rt,
        rt.alloc(),
        MET,
        &THE_HEADER_STANDS_FIRST_AND_DECLARES_A_NODE_ONCE,
    )
}

#[test]
fn lines_name_declared_nodes(rt: HostRuntime) -> Result<(), Fail> {
    audits(&rt, rt.alloc(), MET, &LINES_NAME_DECLARED_NODES)
}

#[test]
fn a_node_enters_once_and_with_the_same_members(rt: HostRuntime) -> Result<(), Fail> {
    audits(
        &rt,
        rt.alloc(),
        MET,
        &A_NODE_ENTERS_ONCE_AND_WITH_THE_SAME_MEMBERS,
    )
}

#[test]
fn a_line_of_a_view_follows_its_entry(rt: HostRuntime) -> Result<(), Fail> {
    audits(&rt, rt.alloc(), MET, &A_LINE_OF_A_VIEW_FOLLOWS_ITS_ENTRY)
}
