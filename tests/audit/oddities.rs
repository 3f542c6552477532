//! Journals that no run writes, of which each line may still stand, or just doesn't.
use super::journals::{APART, HIGH, MANY, MET, Row, SETTLED, audits};
use audit_core::Law;
use std::test::Fail;

const KEYS_MAY_FALL_AND_MEMBERS_MAY_STAY_AWAY: [Row; 3] = [
    (
        "enter 1 3.1 1
enter 1 1.9 1
",
        None,
    ),
    (
        "enter 1 3.1 2,1
value 1 3.1 1 ffff000000000000000000000000000000000000 0.1=61
",
        None,
    ),
    (
        "enter 1 3.1 2,1
value 1 3.1 1 ffff000000000000000000000000000000000000 0.1=62
",
        Some((Law::ReadJoin, 17)),
    ),
];

const A_STOPPED_NODE_THAT_ENTERS_HAS_A_VIEW: [Row; 2] = [
    (
        "stop 2
enter 2 3.2 2
settled 2 3.2 4095
apply 2 2.2 1 ffff000000000000000000000000000000000000 0.2=63
",
        Some((Law::SettledJoin, 19)),
    ),
    (
        "stop 2
settled 2 2.2 4095
apply 2 2.2 1 ffff000000000000000000000000000000000000 0.2=63
",
        None,
    ),
];

const A_WRITE_UNDER_A_KEY_THAT_WAS_LEFT_COUNTS_IN_BOTH_VIEWS: [Row; 4] = [
    (
        "enter 1 3.1 1
settled 1 3.1 4095
apply 1 2.2 1 ffff000000000000000000000000000000000000 0.2=63
",
        Some((Law::SettledJoin, 18)),
    ),
    (
        "merge 1 2.2 ffff000000000000000000000000000000000000 0.1=62
settled 2 2.2 4095
enter 1 3.1 1
apply 1 2.2 1 ffff000000000000000000000000000000000000 0.2=63
",
        Some((Law::SettledJoin, 19)),
    ),
    (
        "enter 1 3.1 1
apply 1 2.2 1 ffff000000000000000000000000000000000000 0.2=63
",
        None,
    ),
    (
        "enter 1 3.1 1
settled 1 3.1 4095
merge 1 2.2 ffff000000000000000000000000000000000000 0.1=62
",
        Some((Law::SettledJoin, 18)),
    ),
];

const AN_ENTRY_BEHIND_THE_SETTLED_LINE_CHANGES_THE_JOIN: [Row; 5] = [
    (
        "enter 2 3.2 2,1
settled 2 3.2 4095
",
        None,
    ),
    (
        "enter 2 3.2 2,1
settled 2 3.2 4095
enter 1 3.2 2,1
",
        Some((Law::SettledJoin, 18)),
    ),
    (
        "merge 1 2.2 ffff000000000000000000000000000000000000 0.1=62
enter 2 3.2 2,1
settled 2 3.2 4095
enter 1 3.2 2,1
",
        None,
    ),
    (
        "enter 2 3.2 2,1
settled 2 3.2 4095
apply 2 3.2 1 ffff000000000000000000000000000000000000 0.2=63
enter 1 3.2 2,1
",
        None,
    ),
    (
        "enter 2 3.2 2,1
settled 2 3.2 4095
apply 2 3.2 1 ffff000000000000000000000000000000000000 0.2=63
enter 1 3.2 2,1
done 2 3.2 1
",
        Some((Law::SettledJoin, 20)),
    ),
];

const A_VERSION_MAY_COME_THAT_ITS_VIEW_DOES_NOT_KNOW: [Row; 3] = [
    (
        "merge 1 1.1 ffff000000000000000000000000000000000000 0.1=62
",
        Some((Law::SettledJoin, 12)),
    ),
    (
        "stop 1
merge 1 1.1 ffff000000000000000000000000000000000000 0.1=62
",
        None,
    ),
    (
        "enter 1 1.3 1
merge 1 1.3 ffff000000000000000000000000000000000000 0.1=62
",
        None,
    ),
];

const WHAT_SETTLES_AGAIN_SAYS_NOTHING_NEW: [Row; 2] = [
    (
        "settled 2 2.2 4095
exchanged 2 2.2
done 2 2.2 1
done 2 2.2 1
",
        None,
    ),
    (
        "done 2 2.2 1
settled 2 2.2 4095
apply 2 2.2 1 ffff000000000000000000000000000000000000 0.2=63
",
        Some((Law::SettledJoin, 20)),
    ),
];

const A_GENERATION_STAYS_WHERE_IT_IS_GREATEST: [Row; 3] = [
    (
        "apply 1 2.1 1 ffff000000000000000000000000000000000000 0.4294967295=61
value 1 2.1 1 ffff000000000000000000000000000000000000 0.4294967295=62
",
        None,
    ),
    (
        "apply 1 2.1 1 ffff000000000000000000000000000000000000 0.4294967295=64
value 1 2.1 1 ffff000000000000000000000000000000000000 0.4294967295=64
",
        None,
    ),
    (
        "apply 1 2.1 1 ffff000000000000000000000000000000000000 0.4294967295=64
value 1 2.1 1 ffff000000000000000000000000000000000000 0.4294967295=62
",
        Some((Law::ReadJoin, 11)),
    ),
];

const MORE_NODES_MAY_BE_DECLARED_THAN_A_SCRIPT_HAS: [Row; 2] = [
    (
        "tick 65535
enter 65535 1.1 65535
apply 65535 1.1 1 ffff000000000000000000000000000000000000 0.1=61
value 65535 1.1 2 ffff000000000000000000000000000000000000 0.1=61
",
        None,
    ),
    (
        "tick 65535
tick 65534
",
        Some((Law::Shape, 22)),
    ),
];

#[test]
fn keys_may_fall_and_members_may_stay_away(rt: HostRuntime) -> Result<(), Fail> {
    audits(
        &rt,
        rt.alloc(),
        MET,
        &KEYS_MAY_FALL_AND_MEMBERS_MAY_STAY_AWAY,
    )
}

#[test]
fn a_stopped_node_that_enters_has_a_view(rt: HostRuntime) -> Result<(), Fail> {
    audits(&rt, rt.alloc(), MET, &A_STOPPED_NODE_THAT_ENTERS_HAS_A_VIEW)
}

#[test]
fn a_write_under_a_key_that_was_left_counts_in_both_views(rt: HostRuntime) -> Result<(), Fail> {
    audits(
        &rt,
        rt.alloc(),
        MET,
        &A_WRITE_UNDER_A_KEY_THAT_WAS_LEFT_COUNTS_IN_BOTH_VIEWS,
    )
}

#[test]
fn an_entry_behind_the_settled_line_changes_the_join(rt: HostRuntime) -> Result<(), Fail> {
    audits(
        &rt,
        rt.alloc(),
        MET,
        &AN_ENTRY_BEHIND_THE_SETTLED_LINE_CHANGES_THE_JOIN,
    )
}

#[test]
fn a_version_may_come_that_its_view_does_not_know(rt: HostRuntime) -> Result<(), Fail> {
    audits(
        &rt,
        rt.alloc(),
        APART,
        &A_VERSION_MAY_COME_THAT_ITS_VIEW_DOES_NOT_KNOW,
    )
}

#[test]
fn what_settles_again_says_nothing_new(rt: HostRuntime) -> Result<(), Fail> {
    audits(
        &rt,
        rt.alloc(),
        SETTLED,
        &WHAT_SETTLES_AGAIN_SAYS_NOTHING_NEW,
    )
}

#[test]
fn a_generation_stays_where_it_is_greatest(rt: HostRuntime) -> Result<(), Fail> {
    audits(
        &rt,
        rt.alloc(),
        HIGH,
        &A_GENERATION_STAYS_WHERE_IT_IS_GREATEST,
    )
}

#[test]
fn more_nodes_may_be_declared_than_a_script_has(rt: HostRuntime) -> Result<(), Fail> {
    audits(
        &rt,
        rt.alloc(),
        MANY,
        &MORE_NODES_MAY_BE_DECLARED_THAN_A_SCRIPT_HAS,
    )
}
