//! Tests of `clustering` by its public calls.

use cluster_types::{ClusterKey, Members, NodeId};
use clustering::{AcceptStep, Agree, CommitStep, ProposalStep, RefuseStep, Vote};
use std::process::Abort;
use std::test::Fail;

fn node(rt: &impl Abort, n: u16) -> NodeId {
    NodeId::new(n).expect(rt, "no node")
}

fn key(rt: &impl Abort, round: u64, principal: u16) -> ClusterKey {
    ClusterKey::new(round, principal).expect(rt, "no key")
}

/// These nodes with plain roles, that one among them.
fn members(rt: &impl Abort, ids: &[NodeId], me: NodeId) -> Members {
    let members = Members::from_slice(ids).expect(rt, "no members");
    assert!(rt; members.contains(me));
    members
}

#[test]
fn the_greater_of_two_nodes_proposes_a_view_that_both_enter_once(
    rt: HostRuntime,
) -> Result<(), Fail> {
    let (one, two) = (node(&rt, 1), node(&rt, 2));
    let first = Agree::restart(two, ClusterKey::NONE, ClusterKey::NONE);
    let (first, alone) = first.on_tick(members(&rt, &[two], two), true);
    let enter = ProposalStep::Enter {
        key: key(&rt, 1, 2),
        members: members(&rt, &[two], two),
    };
    assert_eq!(rt; alone, enter);
    let (first, vote) = first.on_propose(key(&rt, 1, 1), members(&rt, &[one], one));
    let refuse = Vote::Refuse {
        key: key(&rt, 1, 1),
        promised: key(&rt, 1, 2),
    };
    assert_eq!(rt; vote, refuse);

    let both = members(&rt, &[two, one], two);
    let entered = key(&rt, 2, 2);
    let (first, proposal) = first.on_tick(both, true);
    let ProposalStep::Send { key, members, to } = proposal else {
        return Err(Fail::from("nothing is sent"));
    };
    assert_eq!(rt; key, entered);
    assert!(rt; members == both);
    assert_eq!(rt; to.as_slice(), [one].as_slice());

    let second = Agree::restart(one, ClusterKey::NONE, ClusterKey::NONE);
    let (second, vote) = second.on_propose(entered, both);
    assert_eq!(rt; vote, Vote::Accept(entered));
    assert_eq!(rt; second.promised(), entered);
    assert_eq!(rt; second.last(), ClusterKey::NONE);

    let (first, step) = first.on_accept(one, entered);
    let both_enter = AcceptStep::Enter {
        key: entered,
        members: both,
    };
    assert_eq!(rt; step, both_enter);
    assert_eq!(rt; first.last(), entered);
    let (_, step) = first.on_accept(one, entered);
    assert_eq!(rt; step, AcceptStep::Stale);

    let (second, step) = second.on_commit(entered, both);
    let follows = CommitStep::Enter {
        key: entered,
        members: both,
    };
    assert_eq!(rt; step, follows);
    let (_, step) = second.on_commit(entered, both);
    assert_eq!(rt; step, CommitStep::Stale);
    Ok(())
}

#[test]
fn a_refusal_stops_the_proposal_and_its_key_is_seen(rt: HostRuntime) -> Result<(), Fail> {
    let (one, two) = (node(&rt, 1), node(&rt, 2));
    let both = members(&rt, &[two, one], two);
    let agree = Agree::restart(two, ClusterKey::NONE, ClusterKey::NONE);
    let (agree, _) = agree.on_tick(both, true);
    let first = key(&rt, 1, 2);
    assert_eq!(rt; agree.promised(), first);
    let (agree, step) = agree.on_refuse(first, key(&rt, 3, 1));
    assert_eq!(rt; step, RefuseStep::Stopped);
    let (agree, step) = agree.on_refuse(first, key(&rt, 2, 1));
    assert_eq!(rt; step, RefuseStep::Stale);
    let (_, proposal) = agree.copy().on_tick(both, false);
    assert_eq!(rt; proposal, ProposalStep::Nothing);
    let (agree, _) = agree.saw(first).on_tick(both, true);
    assert_eq!(rt; agree.promised(), key(&rt, 4, 2));
    Ok(())
}
