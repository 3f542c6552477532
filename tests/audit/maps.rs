//! What a map is to show.
use super::journals::{LONE, MET, Row, audits};
use audit_core::Law;
use std::test::Fail;

const A_MAP_SHOWS_THE_LIST_AND_WHO_ACTS: [Row; 5] = [
    (
        "map 1 2.2 4095 2,1 2
",
        None,
    ),
    (
        "map 1 2.2 4095 2,1 1
",
        Some((Law::OneMap, 16)),
    ),
    (
        "map 1 2.2 4095 1,2 2
",
        Some((Law::OneMap, 16)),
    ),
    (
        "map 1 2.2 4095 2 2
",
        Some((Law::OneMap, 16)),
    ),
    (
        "map 1 2.2 4095 2/1,1 2
",
        Some((Law::OneMap, 16)),
    ),
];

const MEMBERS_ARE_SHOWN_WITH_THEIR_ROLES: [Row; 4] = [
    (
        "enter 1 3.1 2/1,1
enter 2 3.1 2/1,1
map 1 3.1 4095 2/1,1 2
",
        None,
    ),
    (
        "enter 1 3.1 2/1,1
enter 2 3.1 2/1,1
map 1 3.1 4095 2,1 2
",
        Some((Law::OneMap, 18)),
    ),
    (
        "enter 1 3.1 2/0q,1
enter 2 3.1 2/0q,1
map 1 3.1 4095 1,2/0q 2
",
        None,
    ),
    (
        "enter 1 3.1 2/0q,1
enter 2 3.1 2/0q,1
map 1 3.1 4095 2/0q,1 2
",
        Some((Law::OneMap, 18)),
    ),
];

const A_COPY_IS_WHOLE_BY_WHAT_STOOD_BEFORE_ITS_ENTRY: [Row; 5] = [
    (
        "merge 1 2.2 ffff000000000000000000000000000000000000 0.1=62
learn 1 2.2 4095
enter 2 3.2 2,1
enter 1 3.2 2,1
map 2 3.2 4095 2,1 1
",
        None,
    ),
    (
        "merge 1 2.2 ffff000000000000000000000000000000000000 0.1=62
learn 1 2.2 4095
enter 2 3.2 2,1
enter 1 3.2 2,1
map 2 3.2 4095 2,1 2
",
        Some((Law::OneMap, 20)),
    ),
    (
        "enter 2 3.2 2,1
enter 1 3.2 2,1
learn 1 2.2 4095
map 2 3.2 4095 2,1 2
",
        None,
    ),
    (
        "merge 1 2.2 ffff000000000000000000000000000000000000 0.1=62
learn 1 2.2 4095
drop 1 2.2 4095
enter 2 3.2 2,1
enter 1 3.2 2,1
map 2 3.2 4095 2,1 2
",
        None,
    ),
    (
        "merge 1 2.2 ffff000000000000000000000000000000000000 0.1=62
learn 1 2.2 4095
drop 1 2.2 4095
merge 1 2.2 ffff000000000000000000000000000000000000 0.1=62
enter 2 3.2 2,1
enter 1 3.2 2,1
map 2 3.2 4095 2,1 2
",
        None,
    ),
];

const ONLY_A_REPLICA_BEGINS_WHOLE: [Row; 2] = [
    (
        "map 1 3.2 4095 2,1 2
",
        None,
    ),
    (
        "map 1 3.2 4095 2,1 1
",
        Some((Law::OneMap, 12)),
    ),
];

#[test]
fn a_map_shows_the_list_and_who_acts(rt: HostRuntime) -> Result<(), Fail> {
    audits(&rt, rt.alloc(), MET, &A_MAP_SHOWS_THE_LIST_AND_WHO_ACTS)
}

#[test]
fn members_are_shown_with_their_roles(rt: HostRuntime) -> Result<(), Fail> {
    audits(&rt, rt.alloc(), MET, &MEMBERS_ARE_SHOWN_WITH_THEIR_ROLES)
}

#[test]
fn a_copy_is_whole_by_what_stood_before_its_entry(rt: HostRuntime) -> Result<(), Fail> {
    audits(
        &rt,
        rt.alloc(),
        MET,
        &A_COPY_IS_WHOLE_BY_WHAT_STOOD_BEFORE_ITS_ENTRY,
    )
}

#[test]
fn only_a_replica_begins_whole(rt: HostRuntime) -> Result<(), Fail> {
    audits(&rt, rt.alloc(), LONE, &ONLY_A_REPLICA_BEGINS_WHOLE)
}
