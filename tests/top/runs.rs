//! Whole runs over ends in memory.
use byte_ends::{MemSink, MemSource, SureSink, SureSource};
use cluster_top::{Status, run};
use script_lang::Cause;
use std::alloc::Global;
use std::test::Fail;

const SCRIPT: &str = "node 1
tick 1
tick 1
tick 1
put 1 #0000000000000000000000000000000000000000 hi
get 1 #0000000000000000000000000000000000000000
";

/// What the script writes.
pub const TRANSCRIPT: &str = "node 1
tick 1
tick 1
tick 1
promise 1 1.1
enter 1 1.1 1
exchanged 1 1.1
opened 1 1.1 1 0000000000000000000000000000000000000000 put
apply 1 1.1 1 0000000000000000000000000000000000000000 0.1=6869
done 1 1.1 1
opened 1 1.1 2 0000000000000000000000000000000000000000 get
value 1 1.1 2 0000000000000000000000000000000000000000 0.1=6869
";

const EARLY: &str = "node 1
get 1 #0000000000000000000000000000000000000000
";

const REFUSED: &str = "node 1
refused 1 0000000000000000000000000000000000000000 noview
";

/// A clock that goes back, and a store that is shown.
const CLOCKED: &str = "node 1
tick 1
tick 1
tick 1
clock 1 100
put 1 #0000000000000000000000000000000000000000 a
clock 1 7
put 1 #0000000000000000000000000000000000000000 b
show 1 #0000000000000000000000000000000000000000
hash #ffff000000000000000000000000000000000000
";

const CLOCKED_TRANSCRIPT: &str = "node 1
tick 1
tick 1
tick 1
promise 1 1.1
enter 1 1.1 1
exchanged 1 1.1
clock 1 100
opened 1 1.1 1 0000000000000000000000000000000000000000 put
apply 1 1.1 1 0000000000000000000000000000000000000000 100.1=61
done 1 1.1 1
clock 1 7
opened 1 1.1 2 0000000000000000000000000000000000000000 put
apply 1 1.1 2 0000000000000000000000000000000000000000 100.2=62
done 1 1.1 2
holds 1 0000000000000000000000000000000000000000 100.2=62
hash ffff000000000000000000000000000000000000 4095
";

/// Racks and a policy, on several nodes, whose stores are empty.
const DECLARED: &str = "script 2
factor 3
policy generation
node 1 1
node 2 1
node 3 2
node 4 0
place 1
place 2
show 2 #0000000000000000000000000000000000000000
";

const DECLARED_TRANSCRIPT: &str = "script 2
factor 3
policy generation
node 1 1
node 2 1
node 3 2
node 4 0
place 1 3/2,1/1,4,2/1
place 2 2/1,3/2,4,1/1
holds 2 0000000000000000000000000000000000000000 none
";

/// What the summary of that transcript is.
const SUMMARY: &str =
    "{\"applied\":1,\"drops\":0,\"lines\":12,\"merges\":0,\"nodes\":1,\"sent\":0,\"settled\":0}";

/// Rounds until a node is at rest, and then none.
const CALM: &str = "node 1
calm
calm
";

const CALM_TRANSCRIPT: &str = "node 1
tick 1
tick 1
tick 1
promise 1 1.1
enter 1 1.1 1
exchanged 1 1.1
calm 3
calm 0
";

/// A round delivers what it has sent.
const ROUND: &str = "node 2
node 1
round
deliver 1
deliver 2
";

const ROUND_TRANSCRIPT: &str = "node 2
node 1
tick 1
sent 1 1 2 010000000000000000000000000000000000
tick 2
sent 2 2 1 010000000000000000000000000000000000
deliver 1 1 2
deliver 2 2 1
nomessage 1
nomessage 2
";

/// What a run is given, and how it is to end.
#[derive(Clone, Copy)]
struct Case {
    script: &'static str,
    pull_fails: &'static [u64],
    push_fails: &'static [u64],
    status: Status,
    taken: &'static str,
}

/// A run over pieces of seven bytes, and then its status and what the sink took.
fn ends_as_wanted(alloc: Global, case: &Case) -> Result<bool, Fail> {
    let mut source = MemSource::new(alloc, case.script.as_bytes(), 7, case.pull_fails)?;
    let mut sink = MemSink::new(alloc, 1000, case.push_fails)?;
    let outcome = run(alloc, &[], &mut source, &mut sink);
    Ok(outcome.status() == case.status && sink.as_slice() == case.taken.as_bytes())
}

#[test]
fn runs_write_their_transcript_or_say_what_failed(rt: HostRuntime) -> Result<(), Fail> {
    let none: &[u64] = &[];
    let first: &[u64] = &[1];
    for (script, pull_fails, push_fails, status, taken) in [
        ("", none, none, Status::Done, ""),
        (SCRIPT, none, none, Status::Done, TRANSCRIPT),
        (EARLY, none, none, Status::Done, REFUSED),
        (CLOCKED, none, none, Status::Done, CLOCKED_TRANSCRIPT),
        (DECLARED, none, none, Status::Done, DECLARED_TRANSCRIPT),
        (CALM, none, none, Status::Done, CALM_TRANSCRIPT),
        (ROUND, none, none, Status::Done, ROUND_TRANSCRIPT),
        (SCRIPT, first, none, Status::ReadFault, ""),
        (SCRIPT, none, first, Status::WriteFault, ""),
        (
            "node 1\n\njump 1\n\ntick\n",
            none,
            none,
            Status::BadScript {
                line: 3,
                cause: Cause::UnknownWord,
            },
            "",
        ),
    ] {
        let case = Case {
            script,
            pull_fails,
            push_fails,
            status,
            taken,
        };
        assert!(rt; ends_as_wanted(rt.alloc(), &case)?, "{script}");
    }
    Ok(())
}

#[test]
fn a_byte_past_the_limit_is_too_long(rt: HostRuntime) -> Result<(), Fail> {
    let alloc = rt.alloc();
    let bytes = vec![in alloc; b'\n'; 16_777_217]?;
    let mut source = SureSource::new(alloc, bytes.as_slice())?;
    let outcome = run(alloc, &[], &mut source, &mut SureSink::new());
    assert_eq!(rt; outcome.status(), Status::ScriptTooLong);
    Ok(())
}

#[test]
fn words_that_it_does_not_take_are_refused(rt: HostRuntime) -> Result<(), Fail> {
    for words in [
        "--sum",
        "-s",
        "summary",
        "--",
        "--help",
        "--summary --summary",
        "--summary=yes",
        "--generate",
        "--generate=",
        "--generate --summary",
        "--generate -7",
        "--generate +7",
        "--generate 7 --generate 7",
        "--generate 18446744073709551616",
        "--generate 000000000000000000007",
    ] {
        let (status, taken) = written_for(rt.alloc(), words, SCRIPT)?;
        assert_eq!(rt; status, Status::BadWords, "{words}");
        assert!(rt; taken.is_empty(), "{words}");
    }
    Ok(())
}

/// The status of a run with these words, and what it wrote.
fn written_for(alloc: Global, words: &str, script: &str) -> Result<(Status, Vec<u8>), Fail> {
    let mut given = Vec::new(alloc);
    for word in words.split(' ') {
        given.push(String::from_str(alloc, word)?)?;
    }
    let mut source = SureSource::new(alloc, script.as_bytes())?;
    let mut sink = MemSink::new(alloc, 1_000_000, &[])?;
    let status = run(alloc, given.as_slice(), &mut source, &mut sink).status();
    Ok((status, Vec::from_slice(alloc, sink.as_slice())?))
}

#[test]
fn a_summary_follows_the_transcript(rt: HostRuntime) -> Result<(), Fail> {
    let (status, taken) = written_for(rt.alloc(), "--summary", SCRIPT)?;
    assert_eq!(rt; status, Status::Done);
    let wanted = format!(in rt.alloc(); "{TRANSCRIPT}{SUMMARY}\n")?;
    assert_eq!(rt; taken.as_slice(), wanted.as_bytes());
    Ok(())
}
