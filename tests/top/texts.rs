//! What the calls that take no streams give, against values from outside.
use audit_core::Law;
use cluster_top::{Status, code, fault_text, generated};
use script_lang::Cause;
use std::test::Fail;

/// The front of the script of 7, by another program after the rules of docs/RULES.md.
const GENERATED_FRONT: &str =
    "factor 2\nnode 1\nnode 2\nnode 3\nnode 4\nnode 5\ncalm\nask 1\nflow\nflow\nclock 1 257\ncput u/k37 v0\nround\ncget u/k46\nclock 5 256\ncput u/k74 v2\nround\ncget u/k25\ncget u/k1\nclock 1 766\ncput u/k98 v5\nround\nclock 5 948\ncput u/k192 v6\n";

#[test]
fn a_script_is_generated_from_its_number(rt: HostRuntime) -> Result<(), Fail> {
    let script = generated(rt.alloc(), 7)?;
    assert!(rt; script.as_slice().starts_with(GENERATED_FRONT.as_bytes()));
    assert_eq!(rt; script.len(), 12_742);
    Ok(())
}

#[test]
fn each_status_has_its_code_and_text(rt: HostRuntime) -> Result<(), Fail> {
    let cause = Cause::NotBuilt;
    for (status, number, words) in [
        (Status::Done, 0, ""),
        (Status::NoMemory, 1, "no memory"),
        (Status::BadWords, 2, "bad words"),
        (Status::BadScript { line: 3, cause }, 3, "line 3: NotBuilt"),
        (Status::ReadFault, 4, "read fault"),
        (Status::WriteFault, 5, "write fault"),
        (Status::ScriptTooLong, 6, "script too long"),
        (Status::RunTooLong, 7, "run too long"),
        (Status::TranscriptTooLong, 8, "transcript too long"),
        (
            Status::BadTranscript { line: 12 },
            9,
            "line 12: not a transcript",
        ),
        (
            Status::Refuted {
                law: Law::NoLoss,
                line: 3,
            },
            10,
            "refuted",
        ),
    ] {
        assert_eq!(rt; code(&status), number);
        let text = fault_text(rt.alloc(), &status)?;
        assert_eq!(rt; text.as_slice(), words.as_bytes());
    }
    Ok(())
}
