//! Replicas of settled partitions hold the join of their view.
use super::journals::{EMPTY, LONE, MET, Row, SETTLED, audits};
use audit_core::Law;
use std::test::Fail;

const A_REPLICA_OF_A_SETTLED_PARTITION_HOLDS_THE_JOIN: [Row; 6] = [
    (
        "merge 1 2.2 ffff000000000000000000000000000000000000 0.1=62
settled 2 2.2 4095
",
        None,
    ),
    (
        "settled 2 2.2 4095
",
        Some((Law::SettledJoin, 16)),
    ),
    (
        "settled 1 2.2 4095
",
        None,
    ),
    (
        "stop 1
settled 2 2.2 4095
",
        None,
    ),
    (
        "stop 2
settled 2 2.2 4095
",
        None,
    ),
    (
        "settled 2 2.2 4094
",
        None,
    ),
];

const AN_OPEN_WRITE_DEFERS_WHAT_IS_ASKED: [Row; 8] = [
    (
        "apply 2 2.2 1 ffff000000000000000000000000000000000000 0.2=63
",
        None,
    ),
    (
        "apply 2 2.2 1 ffff000000000000000000000000000000000000 0.2=63
done 2 2.2 1
",
        Some((Law::SettledJoin, 19)),
    ),
    (
        "apply 2 2.2 1 ffff000000000000000000000000000000000000 0.2=63
doubt 2 2.2 1
",
        None,
    ),
    (
        "apply 2 2.2 1 ffff000000000000000000000000000000000000 0.2=63
done 1 2.2 1
",
        None,
    ),
    (
        "apply 2 2.2 1 ffff000000000000000000000000000000000000 0.2=63
done 2 2.2 2
",
        None,
    ),
    (
        "apply 2 2.2 1 ffff000000000000000000000000000000000000 0.2=63
merge 1 2.2 ffff000000000000000000000000000000000000 0.2=63
done 2 2.2 1
",
        None,
    ),
    (
        "done 2 2.2 1
apply 2 2.2 1 ffff000000000000000000000000000000000000 0.2=63
",
        Some((Law::SettledJoin, 19)),
    ),
    (
        "apply 1 2.2 1 ffff000000000000000000000000000000000000 0.2=63
",
        Some((Law::SettledJoin, 18)),
    ),
];

const WHO_IS_NO_REPLICA_MAY_HOLD_ANYTHING: [Row; 4] = [
    (
        "settled 2 3.2 4095
",
        Some((Law::SettledJoin, 12)),
    ),
    (
        "merge 2 3.2 ffff000000000000000000000000000000000000 0.1=61
settled 2 3.2 4095
",
        None,
    ),
    (
        "merge 2 3.2 ffff000000000000000000000000000000000000 0.1=61
settled 2 3.2 4095
apply 2 3.2 1 ffff000000000000000000000000000000000000 0.2=62
done 2 3.2 1
",
        None,
    ),
    (
        "merge 2 3.2 ffff000000000000000000000000000000000000 0.1=61
settled 2 3.2 4095
drop 1 3.2 4095
",
        None,
    ),
];

const EACH_RECORD_OF_A_PARTITION_IS_COMPARED: [Row; 4] = [
    (
        "apply 2 2.2 1 ffff000000000000000000000000000000000001 0.1=63
done 2 2.2 1
",
        Some((Law::SettledJoin, 19)),
    ),
    (
        "apply 2 2.2 1 ffff000000000000000000000000000000000001 0.1=63
merge 1 2.2 ffff000000000000000000000000000000000001 0.1=63
done 2 2.2 1
",
        None,
    ),
    (
        "apply 2 2.2 1 ffff000000000000000000000000000000000000 0.2=63
apply 2 2.2 2 ffff000000000000000000000000000000000001 0.1=63
merge 1 2.2 ffff000000000000000000000000000000000001 0.1=63
done 2 2.2 1
done 2 2.2 2
",
        Some((Law::SettledJoin, 22)),
    ),
    (
        "apply 2 2.2 1 feff000000000000000000000000000000000000 0.1=63
done 2 2.2 1
",
        Some((Law::SettledJoin, 18)),
    ),
];

const ONE_DONE_ENDS_EACH_WRITE_OF_ITS_NUMBER: [Row; 4] = [
    (
        "apply 2 2.2 1 ffff000000000000000000000000000000000000 0.2=63
apply 2 2.2 1 ffff000000000000000000000000000000000000 0.3=64
done 2 2.2 1
",
        Some((Law::SettledJoin, 20)),
    ),
    (
        "apply 2 2.2 1 ffff000000000000000000000000000000000000 0.2=63
apply 2 2.2 1 ffff000000000000000000000000000000000000 0.3=64
merge 1 2.2 ffff000000000000000000000000000000000000 0.3=64
done 2 2.2 1
",
        None,
    ),
    (
        "apply 2 2.2 1 ffff000000000000000000000000000000000000 0.2=63
apply 2 2.2 2 ffff000000000000000000000000000000000000 0.3=64
done 2 2.2 1
",
        None,
    ),
    (
        "apply 2 2.2 1 ffff000000000000000000000000000000000000 0.2=63
apply 2 2.2 2 ffff000000000000000000000000000000000000 0.3=64
done 2 2.2 1
done 2 2.2 2
",
        Some((Law::SettledJoin, 21)),
    ),
];

const WHAT_SETTLES_WHILE_A_WRITE_IS_OPEN_IS_TRIED_BEHIND_IT: [Row; 4] = [
    (
        "apply 2 2.2 1 ffff000000000000000000000000000000000000 0.2=63
settled 2 2.2 4095
",
        None,
    ),
    (
        "apply 2 2.2 1 ffff000000000000000000000000000000000000 0.2=63
settled 2 2.2 4095
done 2 2.2 1
",
        Some((Law::SettledJoin, 18)),
    ),
    (
        "apply 2 2.2 1 ffff000000000000000000000000000000000000 0.2=63
settled 2 2.2 4095
merge 1 2.2 ffff000000000000000000000000000000000000 0.2=63
done 2 2.2 1
",
        None,
    ),
    (
        "apply 2 2.2 1 ffff000000000000000000000000000000000000 0.2=63
done 2 2.2 1
settled 2 2.2 4095
",
        Some((Law::SettledJoin, 18)),
    ),
];

const WHAT_CHANGED_SINCE_THE_LAST_VIEW_IS_COMPARED: [Row; 5] = [
    (
        "enter 1 3.1 1
apply 1 3.1 1 ffff000000000000000000000000000000000000 0.2=63
enter 2 4.2 2,1
enter 1 4.2 2,1
settled 2 4.2 4095
",
        Some((Law::SettledJoin, 22)),
    ),
    (
        "enter 1 3.1 1
apply 1 3.1 1 ffff000000000000000000000000000000000000 0.2=63
enter 2 4.2 2,1
enter 1 4.2 2,1
merge 2 4.2 ffff000000000000000000000000000000000000 0.2=63
settled 2 4.2 4095
",
        None,
    ),
    (
        "enter 2 3.2 2
drop 2 3.2 4095
enter 2 4.2 2,1
enter 1 4.2 2,1
settled 2 4.2 4095
",
        Some((Law::SettledJoin, 22)),
    ),
    (
        "enter 2 3.2 2
drop 2 3.2 4095
enter 2 4.2 2,1
enter 1 4.2 2,1
merge 2 4.2 ffff000000000000000000000000000000000000 0.1=62
settled 2 4.2 4095
",
        None,
    ),
    (
        "enter 2 4.2 2,1
enter 1 4.2 2,1
settled 2 4.2 4095
",
        None,
    ),
];

const A_DROP_PARTS_A_REPLICA_FROM_THE_JOIN: [Row; 2] = [
    (
        "drop 1 2.2 4095
",
        Some((Law::SettledJoin, 18)),
    ),
    (
        "enter 1 3.1 1
drop 1 2.2 4095
",
        None,
    ),
];

const A_PARTITION_THAT_NONE_HAD_SETTLES_WITH_THE_EXCHANGE: [Row; 7] = [
    (
        "exchanged 2 1.2
apply 2 1.2 1 ffff000000000000000000000000000000000000 0.1=61
",
        None,
    ),
    (
        "exchanged 2 1.2
apply 2 1.2 1 ffff000000000000000000000000000000000000 0.1=61
done 2 1.2 1
",
        Some((Law::SettledJoin, 8)),
    ),
    (
        "exchanged 2 1.2
apply 1 1.2 1 ffff000000000000000000000000000000000000 0.1=61
",
        Some((Law::SettledJoin, 7)),
    ),
    (
        "exchanged 1 1.2
apply 1 1.2 1 ffff000000000000000000000000000000000000 0.1=61
",
        None,
    ),
    (
        "apply 1 1.2 1 ffff000000000000000000000000000000000000 0.1=61
exchanged 1 1.2
",
        None,
    ),
    (
        "apply 1 1.2 1 ffff000000000000000000000000000000000000 0.1=61
exchanged 2 1.2
",
        Some((Law::SettledJoin, 7)),
    ),
    (
        "apply 1 1.2 1 ffff000000000000000000000000000000000000 0.1=61
merge 2 1.2 ffff000000000000000000000000000000000000 0.1=61
exchanged 2 1.2
exchanged 2 1.2
",
        None,
    ),
];

#[test]
fn a_replica_of_a_settled_partition_holds_the_join(rt: HostRuntime) -> Result<(), Fail> {
    audits(
        &rt,
        rt.alloc(),
        MET,
        &A_REPLICA_OF_A_SETTLED_PARTITION_HOLDS_THE_JOIN,
    )
}

#[test]
fn an_open_write_defers_what_is_asked(rt: HostRuntime) -> Result<(), Fail> {
    audits(
        &rt,
        rt.alloc(),
        SETTLED,
        &AN_OPEN_WRITE_DEFERS_WHAT_IS_ASKED,
    )
}

#[test]
fn who_is_no_replica_may_hold_anything(rt: HostRuntime) -> Result<(), Fail> {
    audits(&rt, rt.alloc(), LONE, &WHO_IS_NO_REPLICA_MAY_HOLD_ANYTHING)
}

#[test]
fn each_record_of_a_partition_is_compared(rt: HostRuntime) -> Result<(), Fail> {
    audits(
        &rt,
        rt.alloc(),
        SETTLED,
        &EACH_RECORD_OF_A_PARTITION_IS_COMPARED,
    )
}

#[test]
fn one_done_ends_each_write_of_its_number(rt: HostRuntime) -> Result<(), Fail> {
    audits(
        &rt,
        rt.alloc(),
        SETTLED,
        &ONE_DONE_ENDS_EACH_WRITE_OF_ITS_NUMBER,
    )
}

#[test]
fn what_settles_while_a_write_is_open_is_tried_behind_it(rt: HostRuntime) -> Result<(), Fail> {
    audits(
        &rt,
        rt.alloc(),
        MET,
        &WHAT_SETTLES_WHILE_A_WRITE_IS_OPEN_IS_TRIED_BEHIND_IT,
    )
}

#[test]
fn what_changed_since_the_last_view_is_compared(rt: HostRuntime) -> Result<(), Fail> {
    audits(
        &rt,
        rt.alloc(),
        SETTLED,
        &WHAT_CHANGED_SINCE_THE_LAST_VIEW_IS_COMPARED,
    )
}

#[test]
fn a_drop_parts_a_replica_from_the_join(rt: HostRuntime) -> Result<(), Fail> {
    audits(
        &rt,
        rt.alloc(),
        SETTLED,
        &A_DROP_PARTS_A_REPLICA_FROM_THE_JOIN,
    )
}

#[test]
fn a_partition_that_none_had_settles_with_the_exchange(rt: HostRuntime) -> Result<(), Fail> {
    audits(
        &rt,
        rt.alloc(),
        EMPTY,
        &A_PARTITION_THAT_NONE_HAD_SETTLES_WITH_THE_EXCHANGE,
    )
}
