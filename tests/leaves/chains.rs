//! Tests of `sorted_chain` by its public calls.
use sorted_chain::SortedChain;
use std::rc::Rc;
use std::test::*;

fn key(last: u8) -> [u8; 20] {
    let mut key = [0; 20];
    key[19] = last;
    key
}

#[test]
fn keeps_entries_in_the_order_of_their_keys(rt: HostRuntime) -> Result<(), Fail> {
    let mut chain = SortedChain::new(rt.alloc());
    assert!(rt; chain.is_empty());
    chain.reserve(2)?;
    for last in [5u8, 1, 9, 3, 7] {
        assert!(rt; matches!(chain.put(key(last), last), Ok(None)));
    }
    assert!(rt; matches!(chain.put(key(3), 30), Ok(Some(3))));
    assert_eq!(rt; chain.len(), 5);
    assert_eq!(rt; chain.find(&key(3)).copied(), Some(30));
    assert!(rt; chain.find(&key(4)).is_none());

    assert_eq!(rt; chain.after(None).map(|entry| *entry.1), Some(1));
    for (above, next) in [(3, Some(5)), (4, Some(5)), (9, None)] {
        assert_eq!(rt; chain.after(Some(&key(above))).map(|entry| *entry.1), next);
    }
    let mut seen = Vec::new(rt.alloc());
    for (_, value) in chain.iter_after(Some(&key(1))) {
        seen.push(*value)?;
    }
    assert_eq!(rt; seen.as_slice(), [30, 5, 7, 9].as_slice());

    chain.take_all();
    assert!(rt; chain.after(None).is_none());
    Ok(())
}

#[test]
fn drops_each_value_once(rt: HostRuntime) -> Result<(), Fail> {
    let shared = Rc::new(rt.alloc(), 7u8)?;
    let mut chain = SortedChain::new(rt.alloc());
    chain.reserve(2)?;
    for last in [2, 1, 3] {
        let value = shared.clone()?;
        assert!(rt; chain.put(key(last), value).is_ok());
    }
    let again = shared.clone()?;
    drop(chain.put(key(1), again));
    assert_eq!(rt; Rc::strong_count(&shared), 4);

    chain.take_all();
    assert_eq!(rt; Rc::strong_count(&shared), 1);
    let last = shared.clone()?;
    drop(chain.put(key(5), last));
    drop(chain);
    assert_eq!(rt; Rc::strong_count(&shared), 1);
    Ok(())
}
