//! Ends that fail at one call, each in turn, and messages that are cut short.
use super::two_sides::{AT_REST, TWO_SIDES, joined};
use byte_ends::{MemSink, MemSource};
use cluster_top::{Status, run};
use std::alloc::Global;
use std::process::Abort;
use std::test::Fail;

/// More than any of these runs writes.
const ROOM: usize = 1_000_000;

/// They come to rest and show their stores, and a client reads.
const AFTERWARDS: &str = "flow
flow
calm
show 1 #ffff000000000000000000000000000000000000
show 2 #ffff000000000000000000000000000000000000
ask 2
flow
flow
cget #ffff000000000000000000000000000000000000
";

const APPLIED: &str = "put 2 #ffff000000000000000000000000000000000000 c
deliver 26
deliver 27
";

const REPLICATED: &str = "put 2 #ffff000000000000000000000000000000000000 c
deliver 26
deliver 27
deliver 28
";

const ASKED: &str = "get 2 #ffff000000000000000000000000000000000000\n";

const ANSWERED: &str = "get 2 #ffff000000000000000000000000000000000000\ndeliver 26\n";

const ACCEPTED: &str = "tick 1\ntick 2\ndeliver 17\n";

const COMMITTED: &str = "tick 1\ntick 2\ndeliver 17\ndeliver 18\n";

const ENTERED: &str = "tick 1\ntick 2\ndeliver 17\ndeliver 18\ndeliver 19\ntick 1\n";

/// Node 1 entered the view of both, and then a later one of itself alone; the former is proposed again.
const REFUSED: &str = "tick 1
tick 2
tick 2
deliver 17
deliver 20
deliver 21
groups 1 | 2
tick 1
tick 1
tick 1
tick 1
tick 1
tick 1
tick 1
tick 1
tick 1
tick 1
tick 1
tick 1
tick 1
groups 1 2
deliver 19
";

/// A message in flight after so many rounds of the two sides and these commands: its number, its
/// sender and receiver, and how many bytes it has.
#[derive(Clone, Copy)]
struct Flying {
    rounds: usize,
    commands: &'static str,
    number: u64,
    ends: (u16, u16),
    length: usize,
}

fn in_flight(
    rounds: usize,
    commands: &'static str,
    number: u64,
    ends: (u16, u16),
    length: usize,
) -> Flying {
    Flying {
        rounds,
        commands,
        number,
        ends,
        length,
    }
}

/// One node sends a client its table a dozen times, 17,426 digits each.
fn tables(alloc: Global) -> Result<String, Fail> {
    let asks = "ask 1\n".repeat(alloc, 12)?;
    Ok(format!(in alloc; "node 1\ncalm\n{asks}flow\n")?)
}

/// How a run ends whose pull and whose push of these numbers fail, and what it wrote. The source
/// gives sixteen bytes at a time.
fn ended(alloc: Global, script: &str, pull: u64, push: u64) -> Result<(Status, Vec<u8>), Fail> {
    let mut source = MemSource::new(alloc, script.as_bytes(), 16, &[pull])?;
    let mut sink = MemSink::new(alloc, ROOM, &[push])?;
    let status = run(alloc, &[], &mut source, &mut sink).status();
    Ok((status, Vec::from_slice(alloc, sink.as_slice())?))
}

#[test]
fn each_pull_that_fails_leaves_nothing_written(rt: HostRuntime) -> Result<(), Fail> {
    let script = joined(rt.alloc(), &[TWO_SIDES, AT_REST])?;
    // The last pull finds the end.
    let pulls = script.len().div_ceil(16) as u64 + 1;
    for number in 1..=pulls {
        let (status, taken) = ended(rt.alloc(), script.as_str(), number, 0)?;
        assert_eq!(rt; status, Status::ReadFault, "pull {number}");
        assert!(rt; taken.is_empty());
    }
    let (status, _) = ended(rt.alloc(), script.as_str(), pulls + 1, 0)?;
    assert_eq!(rt; status, Status::Done);
    Ok(())
}

/// Each push of the run fails in turn: then the sink has taken what the earlier ones gave it, a
/// longer front of the text each time. Tells how many pushes there are.
fn failing_pushes(alloc: Global, script: &str, text: &[u8]) -> Result<u64, Fail> {
    let mut least = 0;
    for number in 1..1000 {
        let (status, taken) = ended(alloc, script, 0, number)?;
        if status == Status::Done {
            return Ok(number - 1);
        }
        let is_longer_front = text.starts_with(taken.as_slice()) && taken.len() >= least;
        if status != Status::WriteFault || !is_longer_front {
            Err("another end than that of a write")?;
        }
        least = taken.len() + 1;
    }
    Err("too many pushes")?
}

#[test]
fn each_push_that_fails_leaves_a_front_of_the_transcript(rt: HostRuntime) -> Result<(), Fail> {
    let script = tables(rt.alloc())?;
    let (status, text) = ended(rt.alloc(), script.as_str(), 0, 0)?;
    assert_eq!(rt; status, Status::Done);
    assert!(rt; text.len() > 200_000);
    let pushes = failing_pushes(rt.alloc(), script.as_str(), text.as_slice())?;
    assert!(rt; pushes > 1);
    Ok(())
}

/// What is written where the message meets this command.
fn transcript_of(alloc: Global, message: &Flying, command: &str) -> Result<String, Fail> {
    let rounds = "round\n".repeat(alloc, message.rounds)?;
    let mut script = String::from_str(alloc, TWO_SIDES)?;
    script.push_str(rounds.as_str())?;
    script.push_str(message.commands)?;
    script.push_str(command)?;
    script.push_str(AFTERWARDS)?;
    let (status, taken) = ended(alloc, script.as_str(), 0, 0)?;
    if status != Status::Done {
        Err("not done")?;
    }
    Ok(String::from_utf8(taken).map_err(|_| "no text")?)
}

/// What is written where it is cut to this length.
fn cut_to(alloc: Global, message: &Flying, length: usize) -> Result<String, Fail> {
    let command = format!(in alloc; "cut {} {length}\n", message.number)?;
    transcript_of(alloc, message, command.as_str())
}

/// What is written where it is lost, before and after the line that says so.
fn lost(alloc: Global, message: &Flying) -> Result<(String, String), Fail> {
    let command = format!(in alloc; "lose {}\n", message.number)?;
    let line = format!(in alloc; "lost {}\n", message.number)?;
    let transcript = transcript_of(alloc, message, command.as_str())?;
    let (before, after) = transcript
        .as_str()
        .split_once(line.as_str())
        .ok_or("it isn't in flight")?;
    Ok((
        String::from_str(alloc, before)?,
        String::from_str(alloc, after)?,
    ))
}

/// Cut to none, to half and to all but one of its bytes, each message changes no more than one that is
/// lost: the lines of a cut that is too short stand in the place of the loss. Cut to all, it isn't short.
fn is_lost_where_cut(rt: &impl Abort, alloc: Global, messages: &[Flying]) -> Result<(), Fail> {
    for message in messages {
        let (before, after) = lost(alloc, message)?;
        let (from, to) = message.ends;
        for length in [0, message.length / 2, message.length.saturating_sub(1)] {
            let text = cut_to(alloc, message, length)?;
            let wanted = format!(in alloc;
                "{before}cut {} {from} {to} {length}\nshort {to}\n{after}",
                message.number
            )?;
            assert_eq!(rt;
                text.as_str(),
                wanted.as_str(),
                "{length} of {}",
                message.length
            );
        }
        let whole = cut_to(alloc, message, message.length)?;
        assert!(rt; !whole.as_str().contains("short"), "all {}", message.length);
    }
    Ok(())
}

#[test]
fn a_cut_heartbeat_or_proposal_is_lost(rt: HostRuntime) -> Result<(), Fail> {
    let messages = [
        in_flight(0, "tick 1\n", 7, (1, 2), 18),
        in_flight(4, "tick 1\ntick 2\n", 17, (2, 1), 14),
        in_flight(4, ACCEPTED, 18, (1, 2), 9),
    ];
    is_lost_where_cut(&rt, rt.alloc(), &messages)
}

#[test]
fn a_cut_refusal_or_commit_is_lost(rt: HostRuntime) -> Result<(), Fail> {
    let messages = [
        in_flight(4, REFUSED, 45, (1, 2), 17),
        in_flight(4, COMMITTED, 19, (2, 1), 14),
    ];
    is_lost_where_cut(&rt, rt.alloc(), &messages)
}

#[test]
fn a_cut_state_or_batch_is_lost(rt: HostRuntime) -> Result<(), Fail> {
    let messages = [
        in_flight(4, ENTERED, 21, (1, 2), 27),
        in_flight(6, "tick 1\n", 27, (1, 2), 49),
    ];
    is_lost_where_cut(&rt, rt.alloc(), &messages)
}

#[test]
fn a_cut_acknowledgement_of_a_batch_or_progress_is_lost(rt: HostRuntime) -> Result<(), Fail> {
    let messages = [
        in_flight(6, "tick 1\ndeliver 27\n", 29, (2, 1), 13),
        in_flight(6, "tick 1\n", 28, (1, 2), 1546),
    ];
    is_lost_where_cut(&rt, rt.alloc(), &messages)
}

#[test]
fn a_cut_write_or_acknowledgement_is_lost(rt: HostRuntime) -> Result<(), Fail> {
    let messages = [
        in_flight(6, APPLIED, 28, (2, 1), 52),
        in_flight(6, REPLICATED, 29, (1, 2), 13),
    ];
    is_lost_where_cut(&rt, rt.alloc(), &messages)
}

#[test]
fn a_cut_ask_or_answer_is_lost(rt: HostRuntime) -> Result<(), Fail> {
    let messages = [
        in_flight(6, ASKED, 26, (2, 1), 33),
        in_flight(6, ANSWERED, 27, (1, 2), 29),
    ];
    is_lost_where_cut(&rt, rt.alloc(), &messages)
}

#[test]
fn a_cut_ask_for_the_table_or_table_is_lost(rt: HostRuntime) -> Result<(), Fail> {
    let messages = [
        in_flight(0, "ask 1\n", 7, (0, 1), 1),
        in_flight(6, "ask 1\nflow\n", 27, (1, 0), 8713),
    ];
    is_lost_where_cut(&rt, rt.alloc(), &messages)
}
