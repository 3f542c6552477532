//! Journals that tests go on with, and what an audit says of them.
use audit_core::{Law, Verdict, audit, lines_of};
use std::alloc::Global;
use std::process::Abort;
use std::test::Fail;

/// Lines that a journal goes on with, and the law that it then breaks, with the number of the line.
pub type Row = (&'static str, Option<(Law, u64)>);

/// A node that is alone has written.
pub const ALONE: &str = "node 1
promise 1 1.1
enter 1 1.1 1
exchanged 1 1.1
apply 1 1.1 1 ffff000000000000000000000000000000000000 0.1=6869
done 1 1.1 1
";

/// Two nodes have written one record, each alone.
pub const APART: &str = "factor 2
node 1
node 2
enter 1 1.1 1
exchanged 1 1.1
apply 1 1.1 1 ffff000000000000000000000000000000000000 0.1=61
done 1 1.1 1
enter 2 1.2 2
exchanged 2 1.2
apply 2 1.2 1 ffff000000000000000000000000000000000000 0.1=62
done 2 1.2 1
";

/// They have met.
pub const MET: &str = "factor 2
node 1
node 2
enter 1 1.1 1
exchanged 1 1.1
apply 1 1.1 1 ffff000000000000000000000000000000000000 0.1=61
done 1 1.1 1
enter 2 1.2 2
exchanged 2 1.2
apply 2 1.2 1 ffff000000000000000000000000000000000000 0.1=62
done 2 1.2 1
enter 2 2.2 2,1
enter 1 2.2 2,1
exchanged 2 2.2
exchanged 1 2.2
";

/// The record's partition is settled.
pub const SETTLED: &str = "factor 2
node 1
node 2
enter 1 1.1 1
exchanged 1 1.1
apply 1 1.1 1 ffff000000000000000000000000000000000000 0.1=61
done 1 1.1 1
enter 2 1.2 2
exchanged 2 1.2
apply 2 1.2 1 ffff000000000000000000000000000000000000 0.1=62
done 2 1.2 1
enter 2 2.2 2,1
enter 1 2.2 2,1
exchanged 2 2.2
exchanged 1 2.2
merge 1 2.2 ffff000000000000000000000000000000000000 0.1=62
settled 2 2.2 4095
";

/// Two nodes have entered a view, and hold nothing.
pub const EMPTY: &str = "factor 2
node 1
node 2
enter 2 1.2 2,1
enter 1 1.2 2,1
";

/// Only the list master is a replica. Without it the other one writes, and they enter another view.
pub const LONE: &str = "factor 1
node 1
node 2
enter 2 2.2 2,1
enter 1 2.2 2,1
exchanged 2 2.2
exchanged 1 2.2
stop 2
apply 1 2.2 1 ffff000000000000000000000000000000000000 0.1=61
enter 2 3.2 2,1
enter 1 3.2 2,1
";

/// A node is alone with a version that another one has replaced.
pub const HIGH: &str = "factor 1
node 1
node 2
clock 2 5
enter 2 1.2 2
apply 2 1.2 1 ffff000000000000000000000000000000000000 5.1=63
enter 1 1.1 1
merge 1 1.1 ffff000000000000000000000000000000000000 0.4294967295=62
enter 1 2.1 1
";

/// More nodes than a script declares.
pub const MANY: &str = "node 1
node 2
node 3
node 4
node 5
node 6
node 7
node 8
node 9
node 10
node 11
node 12
node 13
node 14
node 15
node 16
node 17
node 18
node 19
node 65535
";

/// What an audit says of the journal whose transcript begins and goes on so.
pub fn verdict(alloc: Global, begun: &str, more: &str) -> Result<Verdict, Fail> {
    let mut text = String::from_str(alloc, begun)?;
    text.push_str(more)?;
    let journal = lines_of(alloc, text.as_bytes())?;
    Ok(audit(alloc, &journal)?)
}

/// Of each row an audit says what stands there.
pub fn audits(rt: &impl Abort, alloc: Global, begun: &str, rows: &[Row]) -> Result<(), Fail> {
    for (more, broken) in rows {
        let wanted = match *broken {
            None => Verdict::Holds,
            Some((law, line)) => Verdict::Fails { law, line },
        };
        assert_eq!(rt; verdict(alloc, begun, more)?, wanted, "{more}");
    }
    Ok(())
}
