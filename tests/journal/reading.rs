//! Lines are read back from their text.
use super::lines::LINES;
use conflict_order::Body;
use journal_reader::read;
use journal_text::{Line, Refusal, text};
use std::alloc::Global;
use std::process::Abort;
use std::test::Fail;
use wire_messages::ReplyBody;

/// Texts that are no lines, each by one fault.
const REFUSED: [&str; 52] = [
    "",
    "\n",
    "tick 1",
    "tick 1\n\n",
    "tick 1\ntick 1\n",
    "tick 1\r\n",
    " tick 1\n",
    "tick  1\n",
    "tick 1 \n",
    "tick\t1\n",
    "tick\n",
    "tick 1 2\n",
    "Tick 1\n",
    "tack 1\n",
    "callfull 1\n",
    "tick 01\n",
    "tick +1\n",
    "tick 0\n",
    "tick 65536\n",
    "script 0\n",
    "script 3\n",
    "factor 5\n",
    "node 1 256\n",
    "policy times\n",
    "clock 1 18446744073709551616\n",
    "groups\n",
    "groups 1 |\n",
    "groups 1 | 1\n",
    "groups 1|2\n",
    "short 65536\n",
    "sent 1 0 1 0E\n",
    "sent 1 0 1 0\n",
    "promise 1 1.0\n",
    "promise 1 0.1\n",
    "promise 1 281474976710656.1\n",
    "promise 1 1.1.1\n",
    "enter 1 2.2 1,2\n",
    "enter 1 2.2 none\n",
    "enter 1 2.2 2/0,1\n",
    "enter 1 2.2 2/1q1,1\n",
    "place 1 2,2\n",
    "place 4096 none\n",
    "opened 1 1.1 0 ffff000000000000000000000000000000000000 get\n",
    "opened 1 1.1 1 FFFF000000000000000000000000000000000000 get\n",
    "opened 1 1.1 1 ffff00000000000000000000000000000000000 get\n",
    "apply 1 1.1 1 ffff000000000000000000000000000000000000 0.0=61\n",
    "apply 1 1.1 1 ffff000000000000000000000000000000000000 0.1\n",
    "apply 1 1.1 1 ffff000000000000000000000000000000000000 0.1-61\n",
    "mapless 1 notmaster 2\n",
    "proxied 1 2.2 1 refused noview\n",
    "refused 1 ffff000000000000000000000000000000000000 busy\n",
    "page 1 4294967296\n",
];

fn line(alloc: Global, bytes: &str) -> Result<Line, Fail> {
    Ok(read(alloc, bytes.as_bytes())?.ok_or("no line")?)
}

/// The line of that text has it.
fn is_read_back(rt: &impl Abort, alloc: Global, expected: &str) -> Result<(), Fail> {
    let line = line(alloc, expected)?;
    assert_eq!(rt; text(alloc, &line)?.as_slice(), expected.as_bytes());
    Ok(())
}

#[test]
fn each_line_is_read_back(rt: HostRuntime) -> Result<(), Fail> {
    for expected in LINES {
        is_read_back(&rt, rt.alloc(), expected)?;
    }
    Ok(())
}

#[test]
fn a_line_of_a_message_has_the_parts_that_stand_there(rt: HostRuntime) -> Result<(), Fail> {
    let cut = line(rt.alloc(), "cut 18 1 2 8\n")?;
    assert!(rt;
        matches!(
            cut,
            Line::Cut {
                message: 18,
                from: 1,
                to: 2,
                length: 8
            }
        )
    );
    Ok(())
}

#[test]
fn a_version_has_the_parts_that_stand_there(rt: HostRuntime) -> Result<(), Fail> {
    let text = "merge 1 2.3 ffff000000000000000000000000000000000000 9.4-\n";
    match line(rt.alloc(), text)? {
        Line::Merge {
            node,
            key,
            digest,
            version,
        } => {
            assert_eq!(rt; node.number(), 1);
            assert_eq!(rt; (key.round, key.principal), (2, 3));
            assert_eq!(rt; digest.bytes()[1], 255);
            let version = version.get();
            assert_eq!(rt; (version.lut, version.generation), (9, 4));
            assert!(rt; matches!(version.body, Body::Tombstone));
        }
        _ => panic!(rt; "another line"),
    }
    Ok(())
}

#[test]
fn members_have_their_racks_and_marks(rt: HostRuntime) -> Result<(), Fail> {
    match line(rt.alloc(), "enter 3 2.3 3/0q,2/7\n")? {
        Line::Enter { members, .. } => {
            let members = members.get().as_slice();
            assert_eq!(rt; members.len(), 2);
            assert_eq!(rt; members[0].id.number(), 3);
            assert!(rt; members[0].role.quiesced);
            assert_eq!(rt; members[1].role.rack, 7);
            assert!(rt; !members[1].role.quiesced);
        }
        _ => panic!(rt; "another line"),
    }
    Ok(())
}

#[test]
fn groups_are_told_apart(rt: HostRuntime) -> Result<(), Fail> {
    match line(rt.alloc(), "groups 1 2 | 4\n")? {
        Line::Groups { groups } => assert_eq!(rt; groups.get().len(), 2),
        _ => panic!(rt; "another line"),
    }
    Ok(())
}

#[test]
fn causes_and_replies_have_their_parts(rt: HostRuntime) -> Result<(), Fail> {
    let text = "refused 2 ffff000000000000000000000000000000000000 busy 5\n";
    match line(rt.alloc(), text)? {
        Line::Refused { cause, .. } => assert_eq!(rt; cause, Refusal::Busy(5)),
        _ => panic!(rt; "another line"),
    }
    match line(rt.alloc(), "reply 7 3 done\n")? {
        Line::Reply { number, reply, .. } => {
            assert_eq!(rt; number, 7);
            assert_eq!(rt; *reply.get(), ReplyBody::Done);
        }
        _ => panic!(rt; "another line"),
    }
    Ok(())
}

#[test]
fn other_texts_are_no_lines(rt: HostRuntime) -> Result<(), Fail> {
    for bytes in REFUSED {
        assert!(rt;
            read(rt.alloc(), bytes.as_bytes())?.is_none(),
            "{bytes:?} is read"
        );
    }
    Ok(())
}
