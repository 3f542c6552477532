//! Tests of what is kept of requests that go as messages, by its public calls.

mod steps;

use cluster_types::{ClusterKey, Digest, NodeId, PartitionId};
use conflict_order::{Body, ValueBytes, ValueFault, Version, Want};
use once_client::{CallStep, OnceClient, OpenFault};
use open_table::OpenTable;
use part_scan::{PageStep, Scans};
use proxy_path::{Proxies, ReplyStep};
use reply_table::ReplyTable;
use request_rules::Asker;
use std::alloc::Global;
use std::process::Abort;
use std::test::Fail;
use wire_messages::{Known, Records, ReplyBody, ScanPage};

/// Node 1 with its first request.
const FIRST: Asker = Asker { from: 1, number: 1 };

/// The version 0.1=62.
fn version(alloc: Global) -> Result<Version, ValueFault> {
    Ok(Version {
        lut: 0,
        generation: 1,
        body: Body::Value(ValueBytes::from_slice(alloc, b"b")?),
    })
}

fn is_new(known: Known<'_>) -> bool {
    match known {
        Known::New => true,
        Known::Open => false,
        Known::Kept(_) => false,
    }
}

fn is_open(known: Known<'_>) -> bool {
    match known {
        Known::New => false,
        Known::Open => true,
        Known::Kept(_) => false,
    }
}

fn is_kept(known: Known<'_>, reply: &ReplyBody) -> bool {
    match known {
        Known::New => false,
        Known::Open => false,
        Known::Kept(kept) => kept == reply,
    }
}

/// A read that comes twice: once while its transaction is open, and once it was replied to.
#[test]
fn a_read_is_taken_up_once(rt: HostRuntime) -> Result<(), Fail> {
    let alloc = rt.alloc();
    let mut table = ReplyTable::new(alloc);
    assert!(rt; table.is_empty());
    assert!(rt; is_new(table.known(FIRST)));

    table.reserve(1)?;
    table.bind(FIRST, 1);
    assert!(rt; is_open(table.known(FIRST)));
    assert!(rt; table.bound(1) == Some(FIRST));
    assert!(rt; table.bound(2) == None);

    table.keep(FIRST, ReplyBody::Found(version(alloc)?));
    let found = ReplyBody::Found(version(alloc)?);
    assert!(rt; is_kept(table.known(FIRST), &found));
    assert!(rt; table.bound(1) == None);

    table.clear();
    assert!(rt; table.is_empty());
    assert!(rt; is_new(table.known(FIRST)));
    Ok(())
}

/// One number of two askers is two requests.
#[test]
fn askers_are_told_apart(rt: HostRuntime) -> Result<(), Fail> {
    let mut table = ReplyTable::new(rt.alloc());
    let client = Asker { from: 0, number: 1 };
    table.reserve(1)?;
    table.bind(client, 7);
    table.reserve(1)?;
    table.keep(FIRST, ReplyBody::Busy(7));
    assert!(rt; is_open(table.known(client)));
    assert!(rt; is_kept(table.known(FIRST), &ReplyBody::Busy(7)));
    assert!(rt; is_new(table.known(Asker { from: 1, number: 2 })));
    assert!(rt; table.bound(7) == Some(client));
    Ok(())
}

#[test]
fn numbers_rise_whatever_is_closed(rt: HostRuntime) -> Result<(), Fail> {
    let alloc = rt.alloc();
    let mut open: OpenTable<u8> = OpenTable::new(alloc);
    for (item, number) in [(b'a', 1), (b'b', 2), (b'c', 3)] {
        open.reserve()?;
        assert_eq!(rt; open.push(item), number);
    }
    assert!(rt; open.take(2) == Some(b'b'));
    assert!(rt; open.take(2) == None);
    assert!(rt; open.get(3) == Some(&b'c'));
    assert_eq!(rt; open.numbers(alloc)?.as_slice(), [1, 3].as_slice());

    assert!(rt; open.take(1) == Some(b'a'));
    open.reserve()?;
    assert_eq!(rt; open.push(b'd'), 4);
    assert_eq!(rt; open.numbers(alloc)?.as_slice(), [3, 4].as_slice());
    assert_eq!(rt; open.given(), 4);
    assert_eq!(rt; open.len(), 2);

    assert!(rt; open.replace(3, b'e') == Some(b'c'));
    assert!(rt; open.replace(2, b'f') == None);
    assert!(rt; open.get(3) == Some(&b'e'));

    open.clear();
    assert!(rt; open.is_empty());
    assert_eq!(rt; open.given(), 0);
    Ok(())
}

/// A node of that id.
fn node(rt: &impl Abort, id: u16) -> NodeId {
    NodeId::new(id).expect(rt, "an id")
}

/// A digest of partition 4095.
fn digest() -> Digest {
    let mut bytes = [0; 20];
    bytes[0] = 0xff;
    bytes[1] = 0xff;
    Digest::new(bytes)
}

/// A read that node 1 passes on to node 2, whose reply comes twice.
#[test]
fn a_read_is_passed_on_and_replied_to_once(rt: HostRuntime) -> Result<(), Fail> {
    let alloc = rt.alloc();
    let two = node(&rt, 2);
    let mut proxies = Proxies::new(alloc);
    assert!(rt; proxies.is_idle());
    proxies.reserve()?;
    assert_eq!(rt; proxies.next(), 1);
    assert_eq!(rt; proxies.open(digest(), Want::Get, two)?, 1);
    assert!(rt; proxies.get(1).map(|passed| passed.to == two) == Some(true));
    assert_eq!(rt; proxies.numbers(alloc)?.as_slice(), [1].as_slice());

    assert!(rt; proxies.on_reply(node(&rt, 3), 1) == ReplyStep::Spent);
    assert!(rt; proxies.on_reply(two, 1) == ReplyStep::Taken);
    assert!(rt; proxies.on_reply(two, 1) == ReplyStep::Spent);
    assert!(rt; proxies.is_idle());
    assert_eq!(rt; proxies.next(), 2);

    proxies.bind(FIRST, 1)?;
    assert!(rt; proxies.bound(1) == Some(FIRST));
    assert!(rt; is_open(proxies.known(FIRST)));
    proxies.keep(FIRST, ReplyBody::Done)?;
    assert!(rt; is_kept(proxies.known(FIRST), &ReplyBody::Done));
    proxies.clear();
    assert!(rt; proxies.is_idle());
    assert_eq!(rt; proxies.next(), 1);
    Ok(())
}

/// A put of the client that is refused, done, and done again.
#[test]
fn a_call_is_closed_by_its_reply(rt: HostRuntime) -> Result<(), Fail> {
    let mut calls = OnceClient::new(rt.alloc());
    assert!(rt; calls.next() == Some(1));
    assert!(rt; calls.open(digest(), Want::Del) == Ok(1));
    assert!(rt; calls.get(1).map(|call| call.want == Want::Del) == Some(true));
    assert!(rt; calls.on_reply(1, &ReplyBody::NoView) == CallStep::Refused);
    assert!(rt; calls.on_reply(1, &ReplyBody::Done) == CallStep::Closed);
    assert!(rt; calls.on_reply(1, &ReplyBody::Done) == CallStep::Spent);
    assert!(rt; calls.get(1).is_none());
    Ok(())
}

/// A further request finds no place where 1,024 are open.
#[test]
fn at_most_1024_calls_are_open(rt: HostRuntime) -> Result<(), Fail> {
    let mut calls = OnceClient::new(rt.alloc());
    for number in 1..=1024 {
        assert!(rt; calls.open(digest(), Want::Get) == Ok(number));
    }
    assert!(rt; calls.is_full());
    assert!(rt; calls.next() == None);
    assert!(rt; calls.open(digest(), Want::Get) == Err(OpenFault::Full));
    assert!(rt; calls.on_reply(7, &ReplyBody::Nothing) == CallStep::Closed);
    assert!(rt; calls.open(digest(), Want::Get) == Ok(1025));
    Ok(())
}

/// A digest of partition 4095 with this last byte.
fn digest_with(last: u8) -> Digest {
    let mut bytes = [0; 20];
    bytes[0] = 0xff;
    bytes[1] = 0xff;
    bytes[19] = last;
    Digest::new(bytes)
}

/// A page of scan 1 behind the digest, with a record of each of these last bytes.
fn page(
    alloc: Global,
    after: Option<Digest>,
    lasts: &[u8],
    more: bool,
    writes: u32,
) -> Result<ScanPage, ValueFault> {
    let mut records = Records::new(alloc);
    for last in lasts {
        records.push((digest_with(*last), version(alloc)?))?;
    }
    let key = ClusterKey {
        round: 1,
        principal: 1,
    };
    Ok(ScanPage {
        key,
        scan: 1,
        after,
        writes,
        records,
        more,
    })
}

/// How many records a scan has.
fn records_of(scans: &Scans, number: u32) -> usize {
    let Some(scan) = scans.get(number) else {
        return 0;
    };
    let mut count = 0;
    for page in scan.pages() {
        count += page.len();
    }
    count
}

/// A scan of three records in two pages, of which the second comes twice.
#[test]
fn a_scan_is_whole_with_its_last_page(rt: HostRuntime) -> Result<(), Fail> {
    let alloc = rt.alloc();
    let one = node(&rt, 1);
    let partition = PartitionId::new(4095).expect(&rt, "a partition");
    let mut scans = Scans::new(alloc);
    assert_eq!(rt; scans.next(), 1);
    assert_eq!(rt; scans.begin(alloc, partition)?, 1);
    assert_eq!(rt; scans.next(), 2);
    assert!(rt; scans.get(1).map(|scan| scan.partition() == partition) == Some(true));
    assert!(rt; scans.get(1).map(|scan| scan.position().is_none()) == Some(true));

    let first = page(alloc, None, &[1, 2], true, 3)?;
    assert!(rt; scans.step_of(one, &first) == PageStep::More);
    assert!(rt; scans.on_page(alloc, one, first) == Ok(PageStep::More));
    assert_eq!(rt; records_of(&scans, 1), 2);
    assert!(rt;
        scans
            .get(1)
            .map(|scan| scan.position() == Some(digest_with(2)))
            == Some(true)
    );

    let behind = Some(digest_with(2));
    let last = page(alloc, behind, &[3], false, 3)?;
    assert!(rt; scans.step_of(one, &last) == PageStep::Whole);
    assert!(rt; scans.on_page(alloc, one, last) == Ok(PageStep::Whole));
    assert!(rt; !scans.is_open(1));
    assert!(rt;
        scans.on_page(alloc, one, page(alloc, behind, &[3], false, 3)?) == Ok(PageStep::Spent)
    );
    Ok(())
}

/// A page of another node, or after a further write, begins the scan again; one that begins
/// elsewhere is spent.
#[test]
fn a_scan_begins_again(rt: HostRuntime) -> Result<(), Fail> {
    let alloc = rt.alloc();
    let one = node(&rt, 1);
    let partition = PartitionId::new(4095).expect(&rt, "a partition");
    let behind = Some(digest_with(1));
    let mut scans = Scans::new(alloc);
    scans.begin(alloc, partition)?;
    assert!(rt; scans.on_page(alloc, one, page(alloc, None, &[1], true, 3)?) == Ok(PageStep::More));
    assert!(rt;
        scans.on_page(alloc, one, page(alloc, None, &[1], true, 3)?) == Ok(PageStep::Spent)
    );
    assert!(rt;
        scans.step_of(node(&rt, 2), &page(alloc, behind, &[2], true, 3)?) == PageStep::Again
    );
    assert!(rt;
        scans.on_page(alloc, one, page(alloc, behind, &[2], true, 4)?) == Ok(PageStep::Again)
    );
    assert!(rt; scans.is_open(1));
    assert_eq!(rt; records_of(&scans, 1), 0);
    assert!(rt;
        scans.on_page(alloc, one, page(alloc, None, &[], false, 4)?) == Ok(PageStep::Whole)
    );
    Ok(())
}
