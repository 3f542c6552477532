//! Which bytes are a transcript.
use audit_core::{TextFault, Verdict, audit, lines_of};
use std::test::Fail;

/// Bytes, and the number of the first line at which they cease to be a transcript.
const CUT: [(&[u8], u64); 9] = [
    (b"tick 1", 1),
    (b"\n", 1),
    (b"node 1\ntick 1\n\n", 3),
    (b"node 1\ntick 1", 2),
    (b"node 1\nnode 01\ntick\n", 2),
    (b"node 1\ntick 1\r\n", 2),
    (b"node 1\n\xff 1\n", 2),
    (b"enter 1 1.1 1,2\n", 1),
    (b"enter 1 0.0 1\n", 1),
];

#[test]
fn the_first_bad_line_is_told(rt: HostRuntime) -> Result<(), Fail> {
    for (bytes, line) in CUT {
        let line = line;
        assert_eq!(rt;
            lines_of(rt.alloc(), bytes).err(),
            Some(TextFault::At { line })
        );
    }
    Ok(())
}

#[test]
fn a_transcript_may_be_empty(rt: HostRuntime) -> Result<(), Fail> {
    let journal = lines_of(rt.alloc(), b"")?;
    assert_eq!(rt; journal.lines(), 0);
    assert_eq!(rt; audit(rt.alloc(), &journal)?, Verdict::Holds);
    Ok(())
}

#[test]
fn lines_are_counted(rt: HostRuntime) -> Result<(), Fail> {
    let journal = lines_of(rt.alloc(), b"node 1\ntick 1\n")?;
    assert_eq!(rt; journal.lines(), 2);
    Ok(())
}
