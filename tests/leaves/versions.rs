//! Worked rows of `conflict_order`, and its public calls.
use conflict_order::{Action, Body, Policy, ValueBytes, ValueFault, Version, Want, join};
use std::alloc::Global;
use std::cmp::Ordering::{Equal, Greater, Less};
use std::test::Fail;

fn version(
    alloc: Global,
    lut: u64,
    generation: u32,
    value: Option<&str>,
) -> Result<Version, ValueFault> {
    let body = match value {
        None => Body::Tombstone,
        Some(text) => Body::Value(ValueBytes::from_slice(alloc, text.as_bytes())?),
    };
    Ok(Version {
        lut,
        generation,
        body,
    })
}

#[test]
fn the_policy_says_which_version_is_greater(rt: HostRuntime) -> Result<(), Fail> {
    let rows = [
        ((0, 1, Some("b")), (0, 1, Some("a")), Greater, Greater),
        ((0, 1, Some("a")), (0, 1, Some("aa")), Less, Less),
        ((0, 1, None), (0, 1, Some("")), Less, Less),
        ((9, 1, None), (5, 1, Some("a")), Greater, Greater),
        ((0, 2, Some("a")), (9, 1, Some("b")), Less, Greater),
        ((7, 3, None), (7, 3, None), Equal, Equal),
    ];
    for (row, (a, b, by_time, by_generation)) in rows.into_iter().enumerate() {
        for (by, expected) in [(Policy::Time, by_time), (Policy::Generation, by_generation)] {
            let a = version(rt.alloc(), a.0, a.1, a.2)?;
            let b = version(rt.alloc(), b.0, b.1, b.2)?;
            assert_eq!(rt; a.cmp(&b, by), expected, "row {row}, {by:?}");
            assert_eq!(rt;
                a.is_newer(Some(&b), by),
                expected.is_gt(),
                "row {row}, {by:?}"
            );
            let greater = if expected.is_gt() { &a } else { &b }.copy(rt.alloc())?;
            assert_eq!(rt;
                join(Some(a), Some(b), by),
                Some(greater),
                "row {row}, {by:?}"
            );
        }
    }
    Ok(())
}

#[test]
fn a_version_stands_against_nothing(rt: HostRuntime) -> Result<(), Fail> {
    let held = version(rt.alloc(), 0, 1, Some("a"))?;
    assert!(rt; held.is_newer(None, Policy::default()));
    let same = held.copy(rt.alloc())?;
    assert_eq!(rt; join(None, Some(held), Policy::Time), Some(same));
    assert_eq!(rt; join(None, None, Policy::Time), None);
    Ok(())
}

#[test]
fn a_value_has_up_to_128_bytes(rt: HostRuntime) -> Result<(), Fail> {
    let bytes = [b'z'; 129];
    let longest = ValueBytes::from_slice(rt.alloc(), &bytes[..128])?;
    assert_eq!(rt; longest.as_slice(), &bytes[..128]);
    let want = Want::Put(longest.copy(rt.alloc())?);
    assert_eq!(rt; want.copy(rt.alloc())?, Want::Put(longest));
    assert_eq!(rt; want.action(), Action::Put);

    let fault = ValueBytes::from_slice(rt.alloc(), &bytes).err();
    assert_eq!(rt; fault, Some(ValueFault::TooLong(129)));
    Ok(())
}
