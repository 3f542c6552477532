//! Each kind of message, and its bytes field by field.

use super::bytes::{DIGEST, HI, KEY, fault_of};
use cluster_types::{
    Boxed, ClusterKey, CopyState, Digest, Member, Members, NodeId, NodeList, PartitionId, Role,
    Row4096, StateRow,
};
use conflict_order::{Body, ValueBytes, Version, Want};
use std::alloc::Global;
use std::process::Abort;
use std::test::Fail;
use wire_codec::{
    Batch, BoxedIds, DecodeFault, MapTable, Message, Records, ReplyBody, ScanPage, ScanRefusal,
    decode, encode,
};

/// The key 2.1.
const NEXT: &[u8] = &[0, 0, 0, 0, 0, 2, 0, 1];

/// The version 5.6 without a value.
const GONE: &[u8] = &[0, 0, 0, 0, 0, 0, 0, 5, 0, 0, 0, 6, 0];

const THREE: &[u8] = &[0, 0, 0, 3];

/// Whether a message of so many bytes is cut to this length: to each below 2,000, and of a longer one
/// to the last 32 and to each 59th between them. One of these is behind the last id of a table.
fn is_tried(length: usize, whole: usize) -> bool {
    length < 2000 || length + 32 >= whole || length % 59 == 0
}

/// The bytes of the fields are those of the message: they are read as it, and it is written as they
/// are. Cut they are too short, and with one byte more too long.
fn has_bytes(
    rt: &impl Abort,
    alloc: Global,
    message: Result<Message, Fail>,
    fields: &[&[u8]],
) -> Result<(), Fail> {
    let message = message?;
    let mut bytes = fields.concat(alloc)?;
    let read = decode(alloc, &bytes)?;
    let shown = format!(in alloc; "{read:?}")?;
    assert_eq!(rt; shown, format!(in alloc; "{message:?}")?);
    assert_eq!(rt; encode(alloc, &read)?.as_slice(), bytes.as_slice());

    for length in 0..bytes.len() {
        if is_tried(length, bytes.len()) {
            let fault = fault_of(alloc, &bytes[..length])?;
            assert!(rt;
                matches!(fault, Some(DecodeFault::Short)),
                "{shown} cut to {length}"
            );
        }
    }
    bytes.push(0)?;
    let fault = fault_of(alloc, &bytes)?;
    assert!(rt;
        matches!(fault, Some(DecodeFault::Long(1))),
        "{shown} and a byte"
    );
    Ok(())
}

fn key() -> ClusterKey {
    ClusterKey {
        round: 1,
        principal: 2,
    }
}

fn next_key() -> ClusterKey {
    ClusterKey {
        round: 2,
        principal: 1,
    }
}

fn digest(byte: u8) -> Digest {
    Digest::new([byte; 20])
}

fn gone() -> Version {
    Version {
        lut: 5,
        generation: 6,
        body: Body::Tombstone,
    }
}

fn hi(alloc: Global) -> Result<Version, Fail> {
    Ok(Version {
        lut: 0,
        generation: 1,
        body: Body::Value(ValueBytes::from_slice(alloc, b"hi")?),
    })
}

fn node(number: u16) -> Result<NodeId, &'static str> {
    NodeId::new(number).ok_or("no node has the id 0")
}

fn partition(number: u16) -> Result<PartitionId, &'static str> {
    PartitionId::new(number).ok_or("there are 4,096 partitions")
}

/// The members of these ids, racks and marks.
fn members(alloc: Global, rows: &[(u16, u8, bool)]) -> Result<Members, Fail> {
    let mut list = Vec::new(alloc);
    for (number, rack, quiesced) in rows {
        list.push(Member {
            id: node(*number)?,
            role: Role {
                rack: *rack,
                quiesced: *quiesced,
            },
        })?;
    }
    Ok(Members::with_roles(&list)?)
}

/// The row of these partitions.
fn row(alloc: Global, partitions: &[u16]) -> Result<Boxed<Row4096>, Fail> {
    let mut row = Row4096::new();
    for number in partitions {
        row.put(partition(*number)?);
    }
    Ok(Boxed::new(alloc, row)?)
}

/// The heartbeat of a node in no view that hears nobody.
fn unheard() -> Result<Message, Fail> {
    Ok(Message::Heartbeat {
        view: ClusterKey::NONE,
        promised: ClusterKey::NONE,
        hears: NodeList::new(),
        role: Role::PLAIN,
    })
}

fn heartbeat(hears: &[NodeId], role: Role) -> Result<Message, Fail> {
    Ok(Message::Heartbeat {
        view: key(),
        promised: next_key(),
        hears: NodeList::from_slice(hears)?,
        role,
    })
}

fn propose(alloc: Global, rows: &[(u16, u8, bool)]) -> Result<Message, Fail> {
    Ok(Message::Propose {
        key: key(),
        members: members(alloc, rows)?,
    })
}

fn commit(alloc: Global, rows: &[(u16, u8, bool)]) -> Result<Message, Fail> {
    Ok(Message::Commit {
        key: key(),
        members: members(alloc, rows)?,
    })
}

fn refuse() -> Result<Message, Fail> {
    Ok(Message::Refuse {
        refused: key(),
        promised: next_key(),
    })
}

#[test]
fn messages_of_the_agreement(rt: HostRuntime) -> Result<(), Fail> {
    let alloc = rt.alloc();
    let heard = [node(258)?, node(1)?];
    has_bytes(&rt, alloc, unheard(), &[&[1], &[0; 17]])?;
    has_bytes(
        &rt,
        alloc,
        heartbeat(&heard, Role::PLAIN),
        &[&[1], KEY, NEXT, &[2, 1, 2, 0, 1]],
    )?;
    has_bytes(
        &rt,
        alloc,
        propose(alloc, &[(2, 0, false), (1, 0, false)]),
        &[&[2], KEY, &[2, 0, 2, 0, 1]],
    )?;
    has_bytes(&rt, alloc, Ok(Message::Accept { key: key() }), &[&[3], KEY])?;
    has_bytes(&rt, alloc, refuse(), &[&[4], KEY, NEXT])?;
    has_bytes(
        &rt,
        alloc,
        commit(alloc, &[(65_535, 0, false)]),
        &[&[5], KEY, &[1, 255, 255]],
    )
}

#[test]
fn messages_with_roles(rt: HostRuntime) -> Result<(), Fail> {
    let alloc = rt.alloc();
    let role = Role {
        rack: 255,
        quiesced: true,
    };
    has_bytes(
        &rt,
        alloc,
        heartbeat(&[node(7)?], role),
        &[&[16], KEY, NEXT, &[1, 0, 7], &[255, 1]],
    )?;
    has_bytes(
        &rt,
        alloc,
        propose(alloc, &[(3, 0, true), (2, 0, false), (1, 0, false)]),
        &[&[17], KEY, &[3, 0, 3, 0, 1, 0, 2, 0, 0, 0, 1, 0, 0]],
    )?;
    has_bytes(
        &rt,
        alloc,
        commit(alloc, &[(2, 0, false), (1, 9, false)]),
        &[&[18], KEY, &[2, 0, 2, 0, 0, 0, 1, 9, 0]],
    )
}

fn state(alloc: Global) -> Result<Message, Fail> {
    let mut row = StateRow::new(alloc);
    row.add(partition(0)?, CopyState::Part)?;
    let whole = CopyState::Whole {
        key: next_key(),
        writes: 258,
    };
    row.add(partition(4095)?, whole)?;
    Ok(Message::State {
        key: key(),
        wants: true,
        row,
    })
}

fn batch(alloc: Global) -> Result<Message, Fail> {
    let mut records = Records::new(alloc);
    records.push((digest(7), gone()))?;
    records.push((digest(8), hi(alloc)?))?;
    Ok(Message::Batch(Batch {
        key: key(),
        number: 3,
        records,
    }))
}

fn progress(alloc: Global) -> Result<Message, Fail> {
    Ok(Message::Progress {
        key: key(),
        wants: false,
        done: row(alloc, &[0, 9])?,
        handed: row(alloc, &[4095])?,
        settled: row(alloc, &[])?,
    })
}

#[test]
fn messages_of_copies_and_their_progress(rt: HostRuntime) -> Result<(), Fail> {
    let alloc = rt.alloc();
    let acknowledgement = Message::BatchAck {
        key: ClusterKey {
            round: 2,
            principal: 2,
        },
        number: 1,
    };
    has_bytes(
        &rt,
        alloc,
        state(alloc),
        &[
            &[6],
            KEY,
            &[1],
            &[0, 2],
            &[0, 0, 1],
            &[15, 255, 2],
            NEXT,
            &[0, 0, 1, 2],
        ],
    )?;
    has_bytes(
        &rt,
        alloc,
        batch(alloc),
        &[&[7], KEY, THREE, &[2], DIGEST, GONE, &[8; 20], HI],
    )?;
    has_bytes(
        &rt,
        alloc,
        Ok(acknowledgement),
        &[&[8], &[0, 0, 0, 0, 0, 2, 0, 2], &[0, 0, 0, 1]],
    )?;
    has_bytes(
        &rt,
        alloc,
        progress(alloc),
        &[
            &[9],
            KEY,
            &[0],
            &[1, 2],
            &[0; 510],
            &[0; 511],
            &[128],
            &[0; 512],
        ],
    )
}

fn repl(alloc: Global) -> Result<Message, Fail> {
    Ok(Message::Repl {
        key: key(),
        transaction: 3,
        nth: 4,
        digest: digest(7),
        version: hi(alloc)?,
    })
}

fn answer(version: Option<Version>) -> Message {
    Message::Answer {
        key: key(),
        transaction: 3,
        version,
    }
}

#[test]
fn messages_of_transactions(rt: HostRuntime) -> Result<(), Fail> {
    let alloc = rt.alloc();
    let acknowledgement = Message::ReplAck {
        key: key(),
        transaction: 3,
    };
    let ask = Message::Ask {
        key: key(),
        transaction: 3,
        digest: digest(7),
    };
    has_bytes(
        &rt,
        alloc,
        repl(alloc),
        &[&[10], KEY, THREE, &[0, 0, 0, 4], DIGEST, HI],
    )?;
    has_bytes(&rt, alloc, Ok(acknowledgement), &[&[11], KEY, THREE])?;
    has_bytes(&rt, alloc, Ok(ask), &[&[12], KEY, THREE, DIGEST])?;
    has_bytes(&rt, alloc, Ok(answer(None)), &[&[13], KEY, THREE, &[0]])?;
    has_bytes(
        &rt,
        alloc,
        Ok(answer(Some(gone()))),
        &[&[13], KEY, THREE, &[1], GONE],
    )
}

fn map_table(alloc: Global) -> Result<Message, Fail> {
    let mut ids = [node(257)?; 4096];
    ids[4095] = node(2)?;
    Ok(Message::MapTable(MapTable {
        key: key(),
        ids: BoxedIds::new(alloc, ids)?,
        moved: row(alloc, &[8, 4095])?,
    }))
}

#[test]
fn messages_of_the_table(rt: HostRuntime) -> Result<(), Fail> {
    let alloc = rt.alloc();
    has_bytes(&rt, alloc, Ok(Message::MapAsk), &[&[14]])?;
    has_bytes(
        &rt,
        alloc,
        map_table(alloc),
        &[&[15], KEY, &[1; 8190], &[0, 2], &[0, 1], &[0; 509], &[128]],
    )
}

fn proxy(alloc: Global) -> Result<Message, Fail> {
    Ok(Message::Proxy {
        key: key(),
        number: 3,
        digest: digest(7),
        want: Want::Put(ValueBytes::from_slice(alloc, b"hi")?),
    })
}

fn proxy_reply(reply: ReplyBody) -> Message {
    Message::ProxyReply {
        key: key(),
        number: 3,
        reply,
    }
}

fn reply(key: ClusterKey, reply: ReplyBody) -> Message {
    Message::Reply {
        key,
        number: 3,
        reply,
    }
}

#[test]
fn messages_of_requests(rt: HostRuntime) -> Result<(), Fail> {
    let alloc = rt.alloc();
    let call = Message::Call {
        number: 3,
        digest: digest(7),
        want: Want::Del,
    };
    let found = ReplyBody::Found(hi(alloc)?);
    let elsewhere = ReplyBody::NotMaster(node(258)?);
    has_bytes(
        &rt,
        alloc,
        proxy(alloc),
        &[&[19], KEY, THREE, DIGEST, &[1, 2, b'h', b'i']],
    )?;
    has_bytes(
        &rt,
        alloc,
        Ok(proxy_reply(found)),
        &[&[20], KEY, THREE, &[1], HI],
    )?;
    has_bytes(
        &rt,
        alloc,
        Ok(proxy_reply(elsewhere)),
        &[&[20], KEY, THREE, &[4, 1, 2]],
    )?;
    has_bytes(&rt, alloc, Ok(call), &[&[21], THREE, DIGEST, &[2]])?;
    has_bytes(
        &rt,
        alloc,
        Ok(reply(ClusterKey::NONE, ReplyBody::NoView)),
        &[&[22], &[0; 8], THREE, &[6]],
    )?;
    has_bytes(
        &rt,
        alloc,
        Ok(reply(key(), ReplyBody::Busy(9))),
        &[&[22], KEY, THREE, &[5, 0, 0, 0, 9]],
    )
}

fn scan_ask() -> Result<Message, Fail> {
    Ok(Message::ScanAsk {
        scan: 3,
        partition: partition(4095)?,
        after: None,
    })
}

fn scan_page(alloc: Global) -> Result<Message, Fail> {
    let mut records = Records::new(alloc);
    records.push((digest(8), hi(alloc)?))?;
    Ok(Message::ScanPage(ScanPage {
        key: key(),
        scan: 3,
        after: Some(digest(7)),
        writes: 0,
        records,
        more: true,
    }))
}

fn scan_no(refusal: ScanRefusal) -> Message {
    Message::ScanNo { scan: 3, refusal }
}

#[test]
fn messages_of_scans(rt: HostRuntime) -> Result<(), Fail> {
    let alloc = rt.alloc();
    has_bytes(&rt, alloc, scan_ask(), &[&[23], THREE, &[15, 255], &[0]])?;
    has_bytes(
        &rt,
        alloc,
        scan_page(alloc),
        &[
            &[24],
            KEY,
            THREE,
            &[1],
            DIGEST,
            &[0; 4],
            &[1],
            &[8; 20],
            HI,
            &[1],
        ],
    )?;
    has_bytes(
        &rt,
        alloc,
        Ok(scan_no(ScanRefusal::NotSettled)),
        &[&[25], THREE, &[4]],
    )?;
    has_bytes(
        &rt,
        alloc,
        Ok(scan_no(ScanRefusal::Open(9))),
        &[&[25], THREE, &[5, 0, 0, 0, 9]],
    )
}
