//! Audits of transcripts: of what runs wrote, and of what none can have written.
use super::runs::TRANSCRIPT;
use super::two_sides::{AT_REST, TWO_SIDES, joined};
use audit_core::Law;
use byte_ends::{MemSink, MemSource, SureSource};
use cluster_top::{Status, run};
use std::alloc::Global;
use std::test::Fail;

/// More than any of these runs writes.
const ROOM: usize = 1_000_000;

/// How many bytes a pull of an audit gives at most.
const PIECE: usize = 64;

/// A node in a view of its own.
const ALONE: &str = "node 1
node 2
enter 1 1.1 1
exchanged 1 1.1
";

/// How an audit ended, what it wrote, and how many lines its journal has.
#[derive(Drop)]
struct Audited {
    status: Status,
    taken: Vec<u8>,
    lines: usize,
}

/// An audit whose pull and whose push of these numbers fail; a number of 0 is none.
fn ended(alloc: Global, transcript: &[u8], pull: u64, push: u64) -> Result<Audited, Fail> {
    let words = [String::from_str(alloc, "--audit")?];
    let mut source = MemSource::new(alloc, transcript, PIECE, &[pull])?;
    let mut sink = MemSink::new(alloc, ROOM, &[push])?;
    let outcome = run(alloc, &words, &mut source, &mut sink);
    Ok(Audited {
        status: outcome.status(),
        taken: Vec::from_slice(alloc, sink.as_slice())?,
        lines: outcome.journal().lines(),
    })
}

/// Whether the audit of the text finds that this line breaks the law, and writes so.
fn is_refuted(alloc: Global, text: &str, law: Law, line: usize, told: &str) -> Result<bool, Fail> {
    let audited = ended(alloc, text.as_bytes(), 0, 0)?;
    let wanted = Status::Refuted {
        law,
        line: line as u64,
    };
    Ok(
        audited.status == wanted
            && audited.taken.as_slice() == told.as_bytes()
            && audited.lines == text.lines().count(),
    )
}

/// Whether it finds that the text ceases at this line to be a transcript.
fn is_no_transcript(alloc: Global, text: &[u8], line: u64) -> Result<bool, Fail> {
    let audited = ended(alloc, text, 0, 0)?;
    let is_told = audited.status == Status::BadTranscript { line };
    Ok(is_told && audited.taken.is_empty() && audited.lines == 0)
}

/// What a run writes in which two sides of a split meet.
fn two_sides(alloc: Global) -> Result<String, Fail> {
    let script = joined(alloc, &[TWO_SIDES, AT_REST])?;
    let mut source = SureSource::new(alloc, script.as_bytes())?;
    let mut sink = MemSink::new(alloc, ROOM, &[])?;
    if run(alloc, &[], &mut source, &mut sink).status() != Status::Done {
        Err("not done")?;
    }
    let text = Vec::from_slice(alloc, sink.as_slice())?;
    Ok(String::from_utf8(text).map_err(|_| "no text")?)
}

#[test]
fn what_runs_write_holds(rt: HostRuntime) -> Result<(), Fail> {
    let met = two_sides(rt.alloc())?;
    for (text, lines) in [
        ("", 0),
        (TRANSCRIPT, 12),
        (met.as_str(), met.as_str().lines().count()),
    ] {
        let audited = ended(rt.alloc(), text.as_bytes(), 0, 0)?;
        assert_eq!(rt; audited.status, Status::Done, "{text}");
        assert_eq!(rt; audited.taken.as_slice(), b"holds\n".as_slice());
        assert_eq!(rt; audited.lines, lines);
    }
    Ok(())
}

#[test]
fn a_read_of_another_value_is_refuted(rt: HostRuntime) -> Result<(), Fail> {
    let (before, last) = TRANSCRIPT.split_once("value ").ok_or("no read")?;
    let last = last.replace(rt.alloc(), "0.1=6869", "0.1=6868")?;
    let text = format!(in rt.alloc(); "{before}value {last}")?;
    let told = "fails readjoin 12\n";
    assert!(rt; is_refuted(rt.alloc(), text.as_str(), Law::ReadJoin, 12, told)?);
    Ok(())
}

#[test]
fn a_settled_partition_without_its_merge_is_refuted(rt: HostRuntime) -> Result<(), Fail> {
    let met = two_sides(rt.alloc())?;
    let (before, rest) = met.as_str().split_once("merge 1 2.2 ").ok_or("no merge")?;
    let (_, after) = rest.split_once("\n").ok_or("no line feed")?;
    let text = joined(rt.alloc(), &[before, after])?;
    let (front, _) = text
        .as_str()
        .split_once("settled ")
        .ok_or("nothing settled")?;
    let line = front.lines().count() + 1;
    let told = format!(in rt.alloc(); "fails settledjoin {line}\n")?;
    assert!(rt;
        is_refuted(
            rt.alloc(),
            text.as_str(),
            Law::SettledJoin,
            line,
            told.as_str()
        )?
    );
    Ok(())
}

#[test]
fn the_law_that_is_broken_is_named(rt: HostRuntime) -> Result<(), Fail> {
    for (line, law, told) in [
        ("node 1\n", Law::Shape, "fails shape 5\n"),
        ("map 1 1.1 0 1 2\n", Law::OneMap, "fails onemap 5\n"),
        (
            "merge 1 1.1 ffff000000000000000000000000000000000000 0.1=61\n",
            Law::NoLoss,
            "fails noloss 5\n",
        ),
    ] {
        let text = joined(rt.alloc(), &[ALONE, line])?;
        assert!(rt;
            is_refuted(rt.alloc(), text.as_str(), law, 5, told)?,
            "{line}"
        );
    }
    Ok(())
}

#[test]
fn what_is_no_transcript_is_not_judged(rt: HostRuntime) -> Result<(), Fail> {
    let whole = TRANSCRIPT.as_bytes();
    assert!(rt; is_no_transcript(rt.alloc(), &whole[..whole.len() - 1], 12)?);
    for (text, line) in [("\n", 1), ("node 1\nnode 01\n", 2), ("node 1\n\n", 2)] {
        assert!(rt;
            is_no_transcript(rt.alloc(), text.as_bytes(), line)?,
            "{text}"
        );
    }
    Ok(())
}

#[test]
fn an_audit_stands_alone(rt: HostRuntime) -> Result<(), Fail> {
    let alloc = rt.alloc();
    for words in [
        "--audit --audit",
        "--audit --summary",
        "--summary --audit",
        "--audit --generate 7",
        "--generate 7 --audit",
        "--generate --audit",
        "--audit --",
        "--audit=yes",
        "--aud",
        "audit",
    ] {
        let mut given = Vec::new(alloc);
        for word in words.split(' ') {
            given.push(String::from_str(alloc, word)?)?;
        }
        let mut source = SureSource::new(alloc, TRANSCRIPT.as_bytes())?;
        let mut sink = MemSink::new(alloc, ROOM, &[])?;
        let outcome = run(alloc, given.as_slice(), &mut source, &mut sink);
        assert_eq!(rt; outcome.status(), Status::BadWords, "{words}");
        assert!(rt; sink.as_slice().is_empty(), "{words}");
    }
    Ok(())
}

#[test]
fn each_pull_and_the_push_that_fail_end_an_audit(rt: HostRuntime) -> Result<(), Fail> {
    let bytes = TRANSCRIPT.as_bytes();
    // The last pull finds the end.
    let pulls = bytes.len().div_ceil(PIECE) as u64 + 1;
    for number in 1..=pulls {
        let audited = ended(rt.alloc(), bytes, number, 0)?;
        assert_eq!(rt; audited.status, Status::ReadFault, "pull {number}");
        assert!(rt; audited.taken.is_empty() && audited.lines == 0);
    }
    let audited = ended(rt.alloc(), bytes, pulls + 1, 1)?;
    assert_eq!(rt; audited.status, Status::WriteFault);
    assert!(rt; audited.taken.is_empty() && audited.lines == 0);
    let audited = ended(rt.alloc(), bytes, pulls + 1, 2)?;
    assert_eq!(rt; audited.status, Status::Done);
    Ok(())
}
