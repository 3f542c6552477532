//! Lines are written, copied, measured and kept.
use super::lines::LINES;
use cluster_types::{Boxed, ClusterKey, Digest, Member, MemberList, NodeId, PartitionId, Role};
use conflict_order::{Action, Policy};
use journal_reader::read;
use journal_text::{Journal, Line, LineList, LineText, TextBuffer, copy_line, text, text_len};
use std::alloc::Global;
use std::mem::size_of;
use std::process::Abort;
use std::test::Fail;
use wire_messages::ReplyBody;

fn node(number: u16) -> Result<NodeId, &'static str> {
    NodeId::new(number).ok_or("no node has the id 0")
}

fn partition(number: u16) -> Result<PartitionId, &'static str> {
    PartitionId::new(number).ok_or("there are 4,096 partitions")
}

fn digest() -> Digest {
    let mut bytes = [0; 20];
    bytes[0] = 255;
    Digest::new(bytes)
}

const KEY: ClusterKey = ClusterKey {
    round: 2,
    principal: 3,
};

/// The line is shown so.
fn shows(rt: &impl Abort, alloc: Global, line: Line, expected: &str) -> Result<(), Fail> {
    let line = LineText(&line);
    assert_eq!(rt; line.to_string(alloc)?.as_str(), expected);
    Ok(())
}

#[test]
fn a_line_takes_at_most_56_bytes(rt: HostRuntime) {
    assert!(rt; size_of::<Line>() <= 56);
}

#[test]
fn a_line_of_the_script_shows_its_parts_in_their_order(rt: HostRuntime) -> Result<(), Fail> {
    let policy = Policy::Generation;
    shows(
        &rt,
        rt.alloc(),
        Line::Policy { policy },
        "policy generation",
    )?;
    let declared = Line::Node {
        node: node(3)?,
        rack: Some(0),
    };
    shows(&rt, rt.alloc(), declared, "node 3 0")
}

#[test]
fn a_line_of_a_message_names_both_ends(rt: HostRuntime) -> Result<(), Fail> {
    let cut = Line::Cut {
        message: 18,
        from: 1,
        to: 65_535,
        length: 8,
    };
    shows(&rt, rt.alloc(), cut, "cut 18 1 65535 8")
}

#[test]
fn a_line_of_a_request_shows_its_parts_in_their_order(rt: HostRuntime) -> Result<(), Fail> {
    let proxy = Line::Proxy {
        node: node(1)?,
        key: KEY,
        number: 4,
        digest: digest(),
        action: Action::Get,
        acting: node(2)?,
    };
    shows(
        &rt,
        rt.alloc(),
        proxy,
        "proxy 1 2.3 4 ff00000000000000000000000000000000000000 get 2",
    )?;
    let reply = Line::Reply {
        number: 2,
        node: node(3)?,
        reply: Boxed::new(rt.alloc(), ReplyBody::NotMaster(node(1)?))?,
    };
    shows(&rt, rt.alloc(), reply, "reply 2 3 refused notmaster 1")
}

#[test]
fn members_show_their_racks_and_marks(rt: HostRuntime) -> Result<(), Fail> {
    let plain = Member::plain(node(1)?);
    let in_rack = Member {
        id: node(3)?,
        role: Role {
            rack: 255,
            quiesced: false,
        },
    };
    let quiesced = Member {
        id: node(2)?,
        role: Role {
            rack: 0,
            quiesced: true,
        },
    };
    let place = Line::Place {
        partition: partition(4095)?,
        members: Boxed::new(
            rt.alloc(),
            MemberList::from_slice(&[plain, in_rack, quiesced])?,
        )?,
    };
    shows(&rt, rt.alloc(), place, "place 4095 1,3/255,2/0q")
}

/// The line of that text is as long as it, and so is its copy.
fn copies(rt: &impl Abort, alloc: Global, expected: &str) -> Result<(), Fail> {
    let line = read(alloc, expected.as_bytes())?.ok_or("no line")?;
    assert_eq!(rt; text_len(&line), expected.len(), "{expected:?}");
    let copy = copy_line(alloc, &line)?;
    assert_eq!(rt; text(alloc, &copy)?.as_slice(), expected.as_bytes());
    Ok(())
}

#[test]
fn lines_stand_in_a_buffer_one_behind_another(rt: HostRuntime) -> Result<(), Fail> {
    let alloc = rt.alloc();
    let mut buffer = TextBuffer::new(alloc);
    let mut whole = Vec::new(alloc);
    for expected in LINES {
        let line = read(alloc, expected.as_bytes())?.ok_or("no line")?;
        buffer.push(&line)?;
        whole.extend_from_slice(expected.as_bytes())?;
    }
    assert_eq!(rt; buffer.as_slice(), whole.as_slice());
    buffer.clear();
    assert_eq!(rt; buffer.len(), 0);
    Ok(())
}

#[test]
fn lines_are_copied_and_measured(rt: HostRuntime) -> Result<(), Fail> {
    for expected in LINES {
        copies(&rt, rt.alloc(), expected)?;
    }
    Ok(())
}

#[test]
fn a_list_of_lines_is_copied_whole(rt: HostRuntime) -> Result<(), Fail> {
    let alloc = rt.alloc();
    let mut lines = LineList::new(alloc);
    lines.push(Line::CallFull)?;
    lines.push_first(Line::Tick { node: node(1)? })?;
    let mut copies = lines.copy(alloc)?;
    assert!(rt; matches!(copies.take_first(), Some(Line::Tick { .. })));
    assert!(rt; matches!(copies.take_first(), Some(Line::CallFull)));
    assert!(rt; copies.is_empty());
    assert_eq!(rt; copies.text_len(), 0);
    assert_eq!(rt; lines.len(), 2);
    assert!(rt; lines.get(0).is_some());
    Ok(())
}

#[test]
fn a_journal_keeps_its_lines_in_order(rt: HostRuntime) -> Result<(), Fail> {
    let alloc = rt.alloc();
    let mut due = LineList::new(alloc);
    due.push(Line::Tick { node: node(1)? })?;
    assert_eq!(rt; due.text_len(), "tick 1\n".len());
    let mut journal = Journal::new(alloc);
    journal.reserve(due.len())?;
    assert!(rt; journal.fits(&due));
    journal.append(&mut due);
    assert!(rt; due.is_empty());
    journal.push(Line::Stop { node: node(2)? })?;
    assert_eq!(rt; journal.lines(), 2);
    let mut shown = Vec::new(alloc);
    for line in journal.as_slice() {
        shown.extend_from_slice(text(alloc, line)?.as_slice())?;
    }
    assert_eq!(rt; shown.as_slice(), b"tick 1\nstop 2\n".as_slice());
    assert!(rt; matches!(journal.get(1), Some(Line::Stop { .. })));
    assert!(rt; journal.get(2).is_none());
    Ok(())
}

#[test]
fn refused_room_leaves_a_journal_as_it_was(rt: HostRuntime) -> Result<(), Fail> {
    let mut journal = Journal::new(rt.alloc());
    journal.push(Line::CallFull)?;
    assert!(rt; journal.reserve(usize::MAX).is_err());
    assert_eq!(rt; journal.lines(), 1);
    Ok(())
}
