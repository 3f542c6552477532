//! Scripts read by the public calls of `script_lang`.
use cluster_types::NodeId;
use conflict_order::Policy;
use script_lang::{Cause, Command, HeaderLine, ScriptFault, parse};
use std::test::Fail;

/// A script, and the line and cause for which it is refused.
const REFUSED: [(&str, u64, Cause); 59] = [
    // The first bad line counts.
    (
        "node 1\ntick 1\ntack 1\ntick 1\nnode x\n",
        3,
        Cause::UnknownWord,
    ),
    // Every line ending, and lines that are passed over, are counted.
    ("node 1\r\n\r\n \t\n; a\ntack\n", 5, Cause::UnknownWord),
    ("\u{feff}node 1\n", 1, Cause::UnknownWord),
    ("node 1\nNODE 2\n", 2, Cause::UnknownWord),
    // A last line without its line feed keeps its carriage return, and of two one stays.
    ("node 1\ntick 1\r", 2, Cause::BadNumber),
    ("node 1\ntick 1\r\r\n", 2, Cause::BadNumber),
    // The words of version 2.
    ("node 1\nquiesce 1\n", 2, Cause::UnknownWord),
    ("policy time\n", 1, Cause::UnknownWord),
    ("node 1\ntick 1\npolicy time\n", 3, Cause::UnknownWord),
    (
        "script 2\nnode 1\ntick 1\npolicy time\n",
        4,
        Cause::HeaderLate,
    ),
    ("node 1 1\n", 1, Cause::ExtraField),
    ("script 2\nnode 1 1 1\n", 2, Cause::ExtraField),
    ("script 2\nnode 1 256\n", 2, Cause::BadNumber),
    ("script 2\nnode 1\nnode 1 256\n", 3, Cause::RepeatedNode),
    ("script 2\npolicy newest\n", 2, Cause::BadPolicy),
    ("script 2\npolicy\n", 2, Cause::MissingField),
    // A version may change only before what rests on it.
    ("node 1\nscript 2\n", 2, Cause::VersionLate),
    ("factor 2\nscript 2\n", 2, Cause::VersionLate),
    ("script 2\npolicy time\nscript 1\n", 3, Cause::VersionLate),
    ("node 1\nscript 3\n", 2, Cause::BadNumber),
    ("node 1\ntick 1\nscript 1\n", 3, Cause::HeaderLate),
    ("node 1\ntick 1\nscript 1 1\n", 3, Cause::HeaderLate),
    ("script 0\n", 1, Cause::BadNumber),
    ("script 18446744073709551616\n", 1, Cause::BadNumber),
    ("script\n", 1, Cause::MissingField),
    ("script 1 x\n", 1, Cause::ExtraField),
    // Numbers and their ranges.
    ("node 0\n", 1, Cause::BadNumber),
    ("node 65536\n", 1, Cause::BadNumber),
    ("node +1\n", 1, Cause::BadNumber),
    ("node 000000000000000000001\n", 1, Cause::BadNumber),
    ("factor 0\n", 1, Cause::BadFactor),
    ("factor 5\n", 1, Cause::BadFactor),
    ("factor 18446744073709551615\n", 1, Cause::BadFactor),
    ("factor 18446744073709551616\n", 1, Cause::BadNumber),
    ("place 4096\n", 1, Cause::BadNumber),
    (
        "node 1\nclock 1 18446744073709551616\n",
        2,
        Cause::BadNumber,
    ),
    ("node 1\nclock 1 x y\n", 2, Cause::ExtraField),
    ("node 1\nclock 2 x\n", 2, Cause::UnknownNode),
    // Nodes.
    ("node 1\nnode 01\n", 2, Cause::RepeatedNode),
    ("tick 1\n", 1, Cause::UnknownNode),
    ("node 1\nput 2 #0 v\n", 2, Cause::UnknownNode),
    ("hash a\nnode 1\n", 2, Cause::HeaderLate),
    ("hash a\nnode\n", 2, Cause::HeaderLate),
    // Keys and values.
    ("hash #\n", 1, Cause::BadDigest),
    (
        "hash #000000000000000000000000000000000000000\n",
        1,
        Cause::BadDigest,
    ),
    (
        "hash #00000000000000000000000000000000000000000\n",
        1,
        Cause::BadDigest,
    ),
    (
        "hash #000000000000000000000000000000000000000g\n",
        1,
        Cause::BadDigest,
    ),
    ("hash\n", 1, Cause::MissingField),
    ("hash a b\n", 1, Cause::ExtraField),
    ("node 1\nput 1 a\n", 2, Cause::MissingField),
    ("node 1\nput 1 a v w\n", 2, Cause::ExtraField),
    // What isn't served, before what else is wrong.
    ("script 2\nnode 1\npagain\n", 3, Cause::NotBuilt),
    ("script 2\nagain\n", 2, Cause::NotBuilt),
    ("script 2\noput 3\n", 2, Cause::NotBuilt),
    ("script 2\nnode 1\npget 1 a\n", 3, Cause::NotBuilt),
    ("script 2\nscan 1\n", 2, Cause::NotBuilt),
    ("script 2\nnode 1\nscannext 1\nnode 1\n", 3, Cause::NotBuilt),
    ("script 2\nscript 1\nquiesce 1\n", 3, Cause::UnknownWord),
    ("\nput 1 a v", 2, Cause::UnknownNode),
];

#[test]
fn refuses_the_first_bad_line_for_its_first_cause(rt: HostRuntime) {
    for (text, line, cause) in REFUSED {
        assert!(rt; text.len() < 1000);
        match parse(rt.alloc(), text.as_bytes()) {
            Ok(_) => panic!(rt; "{text:?} is read"),
            Err(fault) => assert_eq!(rt; fault, ScriptFault::At { line, cause }, "{text:?}"),
        }
    }
}

#[test]
fn reads_each_line_that_is_served(rt: HostRuntime) -> Result<(), Fail> {
    let text = "script 2\r\n\
        ; a comment\n\
        factor\t03\n\
        policy generation\n\
        node 7 0\n\
        \n\
        clock 7 18446744073709551615\n\
        tick 7\n\
        put 7 #00000000000000000000000000000000000000fE \u{e9}\n\
        get 7 s/k\n\
        place 4095\n\
        hash a\n\
        show 7 a";
    assert!(rt; text.len() < 1000);
    let script = parse(rt.alloc(), text.as_bytes())?;
    let node = NodeId::new(7).ok_or("no node")?;
    let header = [
        HeaderLine::Script { version: 2 },
        HeaderLine::Factor { factor: 3 },
        HeaderLine::Policy {
            policy: Policy::Generation,
        },
        HeaderLine::Node {
            node,
            rack: Some(0),
        },
    ];
    assert_eq!(rt; script.header.as_slice(), header.as_slice());
    assert_eq!(rt; script.commands.len(), 7);
    assert!(rt;
        matches!(script.commands.get(0), Some(Command::Clock { time, .. }) if *time == u64::MAX)
    );
    assert!(rt; matches!(script.commands.get(1), Some(Command::Tick { node: n }) if *n == node));
    assert!(rt;
        matches!(script.commands.get(2), Some(Command::Put { digest, value, .. }) if digest.bytes()[19] == 0xfe && value.as_slice() == "\u{e9}".as_bytes())
    );
    assert!(rt; matches!(script.commands.get(3), Some(Command::Get { .. })));
    assert!(rt;
        matches!(script.commands.get(4), Some(Command::Place { partition }) if partition.number() == 4095)
    );
    assert!(rt; matches!(script.commands.get(6), Some(Command::Show { .. })));
    Ok(())
}

#[test]
fn refuses_bytes_that_are_no_text_but_for_comments(rt: HostRuntime) {
    match parse(rt.alloc(), b"; \xff\n\xff a\n") {
        Ok(_) => panic!(rt; "it is read"),
        Err(fault) => {
            let cause = Cause::BadUtf8;
            assert_eq!(rt; fault, ScriptFault::At { line: 2, cause });
        }
    }
}

#[test]
fn refuses_a_seventeenth_node(rt: HostRuntime) {
    let text =
        "node 1\nnode 2\nnode 3\nnode 4\nnode 5\nnode 6\nnode 7\nnode 8\nnode 9\nnode 10\nnode 11\nnode 12\nnode 13\nnode 14\nnode 15\nnode 16\nnode 17\n";
    assert!(rt; text.len() < 1000);
    match parse(rt.alloc(), text.as_bytes()) {
        Ok(_) => panic!(rt; "it is read"),
        Err(fault) => {
            let cause = Cause::TooManyNodes;
            assert_eq!(rt; fault, ScriptFault::At { line: 17, cause });
        }
    }
}

#[test]
fn reads_the_empty_script(rt: HostRuntime) -> Result<(), Fail> {
    let script = parse(rt.alloc(), b"")?;
    assert!(rt; script.header.is_empty());
    assert!(rt; script.commands.is_empty());
    Ok(())
}

#[test]
fn lines_stay_small_in_memory(rt: HostRuntime) {
    assert!(rt; size_of::<Command>() <= 80);
}

#[test]
fn names_the_cause(rt: HostRuntime) -> Result<(), Fail> {
    assert_eq!(rt; Cause::NotBuilt.to_string(rt.alloc())?.as_str(), "NotBuilt");
    Ok(())
}
