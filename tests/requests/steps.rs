//! Steps of a node, with what requests add to them.
use super::{digest, is_kept, is_open, node, version};
use cluster_types::ClusterKey;
use conflict_order::{ValueBytes, Want};
use journal_reader::read;
use journal_text::text;
use node_requests::{Asker, NodeRequests};
use node_steps::Effects;
use std::alloc::Global;
use std::process::Abort;
use std::test::Fail;
use wire_messages::ReplyBody;

const KEY: ClusterKey = ClusterKey {
    round: 2,
    principal: 2,
};

/// The message with which node 2 replies to the first request that node 1 passed on, a read that found
/// 0.1=62.
const FOUND: [u8; 29] = [
    0x14, 0x00, 0x00, 0x00, 0x00, 0x00, 0x02, 0x00, 0x02, 0x00, 0x00, 0x00, 0x01, 0x01, 0x00, 0x00,
    0x00, 0x00, 0x00, 0x00, 0x00, 0x00, 0x00, 0x00, 0x00, 0x01, 0x01, 0x01, 0x62,
];

/// The effects of a step with these lines and without messages.
fn step(alloc: Global, lines: &[&str]) -> Result<Effects, Fail> {
    let mut effects = Effects::new(alloc);
    for line in lines {
        let line = read(alloc, line.as_bytes())?.ok_or("no line")?;
        effects.lines.push(line)?;
    }
    Ok(effects)
}

/// The lines of the effects are these.
fn has_lines(
    rt: &impl Abort,
    alloc: Global,
    effects: &Effects,
    lines: &[&str],
) -> Result<(), Fail> {
    assert_eq!(rt; effects.lines.len(), lines.len());
    for (i, expected) in lines.iter().enumerate() {
        let line = effects.lines.get(i).ok_or("no line")?;
        assert_eq!(rt; text(alloc, line)?.as_slice(), expected.as_bytes());
    }
    Ok(())
}

/// Node 1 passes a read on, and takes its reply.
#[test]
fn a_step_passes_a_read_on(rt: HostRuntime) -> Result<(), Fail> {
    let alloc = rt.alloc();
    let (one, two) = (node(&rt, 1), node(&rt, 2));
    let mut requests = NodeRequests::new(alloc);
    assert!(rt; requests.is_idle());
    assert_eq!(rt; requests.next_number(), 1);

    let passed = ["proxy 1 2.2 1 ffff000000000000000000000000000000000000 get 2\n"];
    let effects = step(alloc, passed.as_slice())?;
    let effects = requests.plan(alloc, one, KEY, None, Some(&Want::Get), effects)?;
    has_lines(&rt, alloc, &effects, passed.as_slice())?;
    assert!(rt; effects.sends.is_empty());
    assert!(rt; requests.is_idle());
    requests.commit();
    assert!(rt; requests.get(1).map(|passed| passed.to == two) == Some(true));
    assert!(rt; requests.get(1).map(|passed| passed.digest == digest()) == Some(true));
    assert_eq!(rt; requests.next_number(), 2);

    let replied = ["proxied 1 2.2 1 value 0.1=62\n"];
    let effects = step(alloc, replied.as_slice())?;
    let effects = requests.plan(alloc, one, KEY, None, None, effects)?;
    has_lines(&rt, alloc, &effects, replied.as_slice())?;
    requests.commit();
    assert!(rt; requests.get(1).is_none());
    assert_eq!(rt; requests.next_number(), 2);
    Ok(())
}

/// Node 2 takes that read up, and replies to it once it has its value.
#[test]
fn a_step_replies_to_a_read(rt: HostRuntime) -> Result<(), Fail> {
    let alloc = rt.alloc();
    let two = node(&rt, 2);
    let asker = Asker { from: 1, number: 1 };
    let mut requests = NodeRequests::new(alloc);

    let opened = ["opened 2 2.2 1 ffff000000000000000000000000000000000000 get\n"];
    let effects = step(alloc, opened.as_slice())?;
    let effects = requests.plan(alloc, two, KEY, Some(asker), Some(&Want::Get), effects)?;
    assert!(rt; effects.sends.is_empty());
    requests.commit();
    assert!(rt; is_open(requests.known(asker)));

    let ended = ["value 2 2.2 1 ffff000000000000000000000000000000000000 0.1=62\n"];
    let effects = step(alloc, ended.as_slice())?;
    let effects = requests.plan(alloc, two, KEY, None, None, effects)?;
    has_lines(&rt, alloc, &effects, ended.as_slice())?;
    assert_eq!(rt; effects.sends.len(), 1);
    let (to, bytes) = effects.sends.get(0).ok_or("no message")?;
    assert_eq!(rt; *to, 1);
    assert_eq!(rt; bytes.as_slice(), FOUND.as_slice());
    assert!(rt; is_open(requests.known(asker)));
    requests.commit();
    let found = ReplyBody::Found(version(alloc)?);
    assert!(rt; is_kept(requests.known(asker), &found));

    // A transaction that wasn't taken up for anybody owes nothing.
    let effects = step(alloc, ["done 2 2.2 2\n"].as_slice())?;
    let effects = requests.plan(alloc, two, KEY, None, None, effects)?;
    assert!(rt; effects.sends.is_empty());
    requests.commit();
    Ok(())
}

/// Node 1 leaves its view while two requests wait.
#[test]
fn a_step_gives_up_what_waits(rt: HostRuntime) -> Result<(), Fail> {
    let alloc = rt.alloc();
    let one = node(&rt, 1);
    let key = ClusterKey {
        round: 2,
        principal: 3,
    };
    let put = Want::Put(ValueBytes::from_slice(alloc, b"b")?);
    let mut requests = NodeRequests::new(alloc);
    for line in [
        "proxy 1 2.3 1 8105000000000000000000000000000000000001 put 2\n",
        "proxy 1 2.3 2 8105000000000000000000000000000000000001 put 2\n",
    ] {
        let effects = step(alloc, [line].as_slice())?;
        let _ = requests.plan(alloc, one, key, None, Some(&put), effects)?;
        requests.commit();
    }
    assert_eq!(rt; requests.numbers(alloc)?.as_slice(), [1, 2].as_slice());
    assert!(rt; requests.get(2).map(|passed| passed.want == put) == Some(true));

    let effects = step(alloc, ["stop 1\n"].as_slice())?;
    let effects = requests.plan(alloc, one, key, None, None, effects)?;
    has_lines(
        &rt,
        alloc,
        &effects,
        ["unproxied 1 2.3 1\n", "unproxied 1 2.3 2\n", "stop 1\n"].as_slice(),
    )?;
    requests.commit();
    assert!(rt; requests.is_idle());
    assert_eq!(rt; requests.next_number(), 1);
    Ok(())
}
