//! No version is lost, and none is made up.
use super::journals::{MET, Row, audits};
use audit_core::Law;
use std::test::Fail;

const NO_VERSION_IS_LOST_OR_MADE_UP: [Row; 7] = [
    (
        "drop 1 2.2 4095
",
        None,
    ),
    (
        "drop 2 2.2 4095
",
        Some((Law::NoLoss, 16)),
    ),
    (
        "merge 1 2.2 ffff000000000000000000000000000000000000 0.1=63
",
        Some((Law::NoLoss, 16)),
    ),
    (
        "merge 1 2.2 ffff000000000000000000000000000000000000 0.1=62
drop 2 2.2 4095
",
        None,
    ),
    (
        "merge 1 2.2 ffff000000000000000000000000000000000000 0.1=62
drop 2 2.2 4095
drop 1 2.2 4095
",
        Some((Law::NoLoss, 18)),
    ),
    (
        "drop 2 2.2 4094
",
        None,
    ),
    (
        "merge 1 2.2 ffff000000000000000000000000000000000000 0.1-
",
        None,
    ),
];

const A_COPY_THAT_WAS_DROPPED_HOLDS_NOTHING: [Row; 2] = [
    (
        "drop 1 2.2 4095
merge 1 2.2 ffff000000000000000000000000000000000000 0.1=62
drop 2 2.2 4095
",
        None,
    ),
    (
        "drop 1 2.2 4095
drop 1 2.2 4095
drop 2 2.2 4095
",
        Some((Law::NoLoss, 18)),
    ),
];

#[test]
fn no_version_is_lost_or_made_up(rt: HostRuntime) -> Result<(), Fail> {
    audits(&rt, rt.alloc(), MET, &NO_VERSION_IS_LOST_OR_MADE_UP)
}

#[test]
fn a_copy_that_was_dropped_holds_nothing(rt: HostRuntime) -> Result<(), Fail> {
    audits(&rt, rt.alloc(), MET, &A_COPY_THAT_WAS_DROPPED_HOLDS_NOTHING)
}
