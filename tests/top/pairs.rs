//! Scripts of two nodes that are in one view or come into one, most of them with messages that are
//! delivered by hand.
use super::two_sides::{AT_REST, TWO_SIDES, joined};
use byte_ends::{MemSink, SureSource};
use cluster_top::{Status, run};
use std::alloc::Global;
use std::test::Fail;

/// After the two sides met: node 2 proposes a view of both at its next tick.
const FOUR_ROUNDS: &str = "round\nround\nround\nround\n";

/// They have exchanged in that view, and 25 messages were sent.
const SIX_ROUNDS: &str = "round\nround\nround\nround\nround\nround\n";

const AT_REST_LINES: [(&str, usize); 10] = [
    ("enter 2 2.2 2,1", 1),
    ("enter 1 2.2 2,1", 1),
    ("merge ", 1),
    (
        "merge 1 2.2 ffff000000000000000000000000000000000000 0.1=62",
        1,
    ),
    ("settled ", 1),
    ("settled 2 2.2 4095", 1),
    ("learn ", 2),
    ("drop ", 0),
    ("holds 1 ffff000000000000000000000000000000000000 0.1=62", 1),
    ("holds 2 ffff000000000000000000000000000000000000 0.1=62", 1),
];

const READ: &str = "get 2 #ffff000000000000000000000000000000000000
get 2 #ffff000000000000000000000000000000000000
get 1 #ffff000000000000000000000000000000000000
deliver 26
lose 27
tick 2
deliver 29
deliver 32
";

/// As far as the rows of a message of progress: node 2 is done but at 4095, and nothing is handed
/// over or settled.
const READ_BEGINS: &str = "opened 2 2.2 1 ffff000000000000000000000000000000000000 get
sent 26 2 1 0c000000000002000200000001ffff000000000000000000000000000000000000
refused 2 ffff000000000000000000000000000000000000 busy 1
refused 1 ffff000000000000000000000000000000000000 notmaster 2
deliver 26 2 1
sent 27 1 2 0d00000000000200020000000101000000000000000000000001010161
lost 27
tick 2
sent 28 2 1 0100000000000200020000000000020002010001
sent 29 2 1 0c000000000002000200000001ffff000000000000000000000000000000000000
sent 30 2 1 0700000000000200020000000101ffff000000000000000000000000000000000000000000000000000000000001010162
sent 31 2 1 09000000000002000201";

const READ_ENDS: &str = "
deliver 29 2 1
sent 32 1 2 0d00000000000200020000000101000000000000000000000001010161
deliver 32 1 2
value 2 2.2 1 ffff000000000000000000000000000000000000 0.1=62
";

const WRITE: &str = "put 2 #ffff000000000000000000000000000000000000 c
deliver 26
deliver 27
stop 2
show 2 #ffff000000000000000000000000000000000000
";

const WRITE_LINES: &str = "opened 2 2.2 1 ffff000000000000000000000000000000000000 put
sent 26 2 1 0c000000000002000200000001ffff000000000000000000000000000000000000
deliver 26 2 1
sent 27 1 2 0d00000000000200020000000101000000000000000000000001010161
deliver 27 1 2
apply 2 2.2 1 ffff000000000000000000000000000000000000 0.2=63
sent 28 2 1 0a00000000000200020000000100000001ffff000000000000000000000000000000000000000000000000000000000002010163
doubt 2 2.2 1
stop 2
holds 2 ffff000000000000000000000000000000000000 0.2=63
";

const READ_AND_STOP: &str = "get 2 #ffff000000000000000000000000000000000000
stop 2
";

const READ_AND_STOP_LINES: &str = "opened 2 2.2 1 ffff000000000000000000000000000000000000 get
sent 26 2 1 0c000000000002000200000001ffff000000000000000000000000000000000000
aborted 2 2.2 1
stop 2
";

const PROPOSED: &str = "tick 1
tick 2
deliver 17
";

const PROPOSED_LINES: &str = "deliver 17 2 1
promise 1 2.2
sent 18 1 2 030000000000020002
";

const COMMIT_AGAIN: &str = "deliver 18
repeat 19
stop 1
start 1
deliver 19
";

const COMMIT_AGAIN_LINES: &str = "deliver 18 1 2
enter 2 2.2 2,1
sent 19 2 1 0500000000000200020200020001
repeat 19 2 1
enter 1 2.2 2,1
stop 1
start 1
deliver 19 2 1
stale 1
";

/// Two nodes whose client has a table of their view, of which 21 messages were sent.
const SERVED: &str = "factor 2
node 1
node 2
round
round
round
round
round
round
ask 1
flow
flow
";

const ONE_WRITE: &str = "cput #ffff000000000000000000000000000000000000 a
round
stop 1
";

/// Of two writes the first one's message is lost.
const LOST_WRITE: &str = "cput #ffff000000000000000000000000000000000000 a
cput #ffff000000000000000000000000000000000001 b
deliver 23
lose 22
stop 1
";

const START_AGAIN: &str = "start 1
calm
";

/// What the script of these parts writes, which is played to its end.
fn transcript_of(alloc: Global, script: &[&str]) -> Result<Vec<u8>, Fail> {
    let script = joined(alloc, script)?;
    let mut source = SureSource::new(alloc, script.as_bytes())?;
    let mut sink = MemSink::new(alloc, 1_000_000, &[])?;
    match run(alloc, &[], &mut source, &mut sink).status() {
        Status::Done => Ok(Vec::from_slice(alloc, sink.as_slice())?),
        _ => Err("not done")?,
    }
}

/// Whether the transcript ends with these lines.
fn ends_with(alloc: Global, script: &[&str], lines: &[&str]) -> Result<bool, Fail> {
    let transcript = transcript_of(alloc, script)?;
    let lines = joined(alloc, lines)?;
    Ok(transcript.as_slice().ends_with(lines.as_bytes()))
}

/// Whether so many lines of the text have each part.
fn has_lines(text: &[u8], lines: &[(&str, usize)]) -> Result<bool, Fail> {
    let text = str::from_utf8(text).map_err(|_| "no text")?;
    Ok(
        lines
            .iter()
            .all(|(part, count)| lines_with(text, *part) == *count),
    )
}

fn lines_with(text: &str, part: &str) -> usize {
    text.lines().filter(|line| line.contains(part)).count()
}

#[test]
fn two_nodes_come_to_rest_in_six_rounds(rt: HostRuntime) -> Result<(), Fail> {
    let script = ["factor 4\nnode 1\nnode 2\ncalm\n"];
    assert!(rt; ends_with(rt.alloc(), &script, &["calm 6\n"])?);
    Ok(())
}

#[test]
fn two_sides_of_a_split_merge_their_writes(rt: HostRuntime) -> Result<(), Fail> {
    let transcript = transcript_of(rt.alloc(), &[TWO_SIDES, AT_REST])?;
    assert!(rt; has_lines(transcript.as_slice(), &AT_REST_LINES)?);
    Ok(())
}

#[test]
fn a_read_asks_again_until_it_is_answered(rt: HostRuntime) -> Result<(), Fail> {
    let ones = "ff".repeat(rt.alloc(), 511)?;
    let noughts = "00".repeat(rt.alloc(), 1024)?;
    let lines = [
        READ_BEGINS,
        ones.as_str(),
        "7f",
        noughts.as_str(),
        READ_ENDS,
    ];
    assert!(rt; ends_with(rt.alloc(), &[TWO_SIDES, SIX_ROUNDS, READ], &lines)?);
    Ok(())
}

#[test]
fn a_stop_leaves_a_write_in_doubt_and_aborts_a_read(rt: HostRuntime) -> Result<(), Fail> {
    for (script, lines) in [(WRITE, WRITE_LINES), (READ_AND_STOP, READ_AND_STOP_LINES)] {
        assert!(rt;
            ends_with(rt.alloc(), &[TWO_SIDES, SIX_ROUNDS, script], &[lines])?,
            "{script}"
        );
    }
    Ok(())
}

#[test]
fn a_commit_that_comes_again_is_stale(rt: HostRuntime) -> Result<(), Fail> {
    let script = [TWO_SIDES, FOUR_ROUNDS, PROPOSED, COMMIT_AGAIN];
    assert!(rt; ends_with(rt.alloc(), &script, &[PROPOSED_LINES, COMMIT_AGAIN_LINES])?);
    Ok(())
}

#[test]
fn nobody_enters_where_an_acceptance_is_cut(rt: HostRuntime) -> Result<(), Fail> {
    let script = [TWO_SIDES, FOUR_ROUNDS, PROPOSED, "cut 18 8\n"];
    assert!(rt;
        ends_with(
            rt.alloc(),
            &script,
            &[PROPOSED_LINES, "cut 18 1 2 8\nshort 2\n"]
        )?
    );
    Ok(())
}

#[test]
fn equal_copies_send_no_batch(rt: HostRuntime) -> Result<(), Fail> {
    let transcript = transcript_of(rt.alloc(), &[SERVED, ONE_WRITE, START_AGAIN])?;
    let before = transcript_of(rt.alloc(), &[SERVED, ONE_WRITE])?;
    let after = transcript
        .as_slice()
        .strip_prefix(before.as_slice())
        .ok_or("no front")?;
    let lines = [
        (" 07", 0),
        ("merge ", 0),
        ("settled ", 1),
        ("learn ", 2),
        ("calm 9", 1),
        (" 06000000000002000201", 2),
        (" 0600000000000200020100010fff02000000000001000200000001", 2),
    ];
    assert!(rt; has_lines(after, &lines)?);
    Ok(())
}

#[test]
fn a_lost_write_makes_copies_differ(rt: HostRuntime) -> Result<(), Fail> {
    let transcript = transcript_of(rt.alloc(), &[SERVED, LOST_WRITE, START_AGAIN])?;
    let lines = [
        ("doubt 2 1.2 1", 1),
        (
            " 2 1 0600000000000200020100010fff02000000000001000200000002",
            1,
        ),
        (
            " 1 2 0600000000000200020100010fff020000000000010002ffffffff",
            1,
        ),
        (" 2 1 07000000000002000200000001", 1),
        (" 1 2 07000000000002000200000001", 1),
        ("merge 1 2.2 ", 1),
        ("merge 2 2.2 ", 0),
        (
            "merge 1 2.2 ffff000000000000000000000000000000000000 0.1=61",
            1,
        ),
    ];
    assert!(rt; has_lines(transcript.as_slice(), &lines)?);
    Ok(())
}
