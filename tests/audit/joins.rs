//! Reads answer the join of their view, writes follow it, and of laws the first is named.
use super::journals::{ALONE, Row, SETTLED, audits};
use audit_core::Law;
use std::test::Fail;

const A_READ_ANSWERS_THE_JOIN: [Row; 5] = [
    (
        "value 1 1.1 2 ffff000000000000000000000000000000000000 0.1=6869
",
        None,
    ),
    (
        "value 1 1.1 2 ffff000000000000000000000000000000000000 0.1=6868
",
        Some((Law::ReadJoin, 7)),
    ),
    (
        "value 1 1.1 2 ffff000000000000000000000000000000000000 none
",
        Some((Law::ReadJoin, 7)),
    ),
    (
        "value 1 1.1 2 0000000000000000000000000000000000000000 none
",
        None,
    ),
    (
        "value 1 1.1 2 0000000000000000000000000000000000000000 0.1=61
",
        Some((Law::ReadJoin, 7)),
    ),
];

const A_WRITE_FOLLOWS_THE_JOIN: [Row; 7] = [
    (
        "apply 1 1.1 2 ffff000000000000000000000000000000000000 0.2=61
done 1 1.1 2
",
        None,
    ),
    (
        "apply 1 1.1 2 ffff000000000000000000000000000000000000 0.3=61
",
        Some((Law::ReadJoin, 7)),
    ),
    (
        "apply 1 1.1 2 ffff000000000000000000000000000000000000 0.1=6869
",
        Some((Law::ReadJoin, 7)),
    ),
    (
        "clock 1 7
apply 1 1.1 2 ffff000000000000000000000000000000000000 7.2-
",
        None,
    ),
    (
        "clock 1 7
apply 1 1.1 2 ffff000000000000000000000000000000000000 0.2=61
",
        Some((Law::ReadJoin, 8)),
    ),
    (
        "clock 1 7
clock 1 3
apply 1 1.1 2 ffff000000000000000000000000000000000000 3.2=61
",
        None,
    ),
    (
        "clock 1 7
clock 1 3
apply 1 1.1 2 ffff000000000000000000000000000000000000 7.2=61
",
        Some((Law::ReadJoin, 9)),
    ),
];

const EACH_NODE_HAS_ITS_OWN_CLOCK: [Row; 3] = [
    (
        "clock 1 7
apply 2 2.2 1 ffff000000000000000000000000000000000000 0.2=63
",
        None,
    ),
    (
        "clock 2 7
apply 2 2.2 1 ffff000000000000000000000000000000000000 0.2=63
",
        Some((Law::ReadJoin, 19)),
    ),
    (
        "clock 2 7
clock 1 8
apply 2 2.2 1 ffff000000000000000000000000000000000000 7.2=63
",
        None,
    ),
];

const THE_FIRST_LAW_THAT_FAILS_IS_NAMED: [Row; 5] = [
    (
        "apply 1 2.2 1 ffff000000000000000000000000000000000000 0.5=63
",
        Some((Law::SettledJoin, 18)),
    ),
    (
        "clock 1 7
value 2 2.2 1 ffff000000000000000000000000000000000000 0.1=61
map 1 2.2 4095 1,2 2
",
        Some((Law::ReadJoin, 19)),
    ),
    (
        "tick 9
value 2 2.2 1 ffff000000000000000000000000000000000000 0.1=61
",
        Some((Law::Shape, 18)),
    ),
    (
        "drop 1 2.2 4095
drop 2 2.2 4095
",
        Some((Law::SettledJoin, 18)),
    ),
    (
        "merge 1 2.2 ffff000000000000000000000000000000000000 0.9=63
",
        Some((Law::NoLoss, 18)),
    ),
];

#[test]
fn a_read_answers_the_join(rt: HostRuntime) -> Result<(), Fail> {
    audits(&rt, rt.alloc(), ALONE, &A_READ_ANSWERS_THE_JOIN)
}

#[test]
fn a_write_follows_the_join(rt: HostRuntime) -> Result<(), Fail> {
    audits(&rt, rt.alloc(), ALONE, &A_WRITE_FOLLOWS_THE_JOIN)
}

#[test]
fn each_node_has_its_own_clock(rt: HostRuntime) -> Result<(), Fail> {
    audits(&rt, rt.alloc(), SETTLED, &EACH_NODE_HAS_ITS_OWN_CLOCK)
}

#[test]
fn the_first_law_that_fails_is_named(rt: HostRuntime) -> Result<(), Fail> {
    audits(&rt, rt.alloc(), SETTLED, &THE_FIRST_LAW_THAT_FAILS_IS_NAMED)
}
