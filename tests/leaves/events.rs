//! The size of an event, of which a run keeps many.
use cluster_rules::Event;
use std::mem::size_of;

#[test]
fn events_stay_small_in_memory(rt: HostRuntime) {
    assert!(rt; size_of::<Event>() <= 80);
}
