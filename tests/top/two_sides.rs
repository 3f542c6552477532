//! The script of two sides of a split, and how scripts are put together.
use std::alloc::Global;
use std::test::Fail;

/// Two nodes that are apart take a write each of one record, and then their groups are one.
pub const TWO_SIDES: &str = "factor 2
node 1
node 2
groups 1 | 2
tick 1
tick 1
tick 1
tick 2
tick 2
tick 2
put 1 #ffff000000000000000000000000000000000000 a
put 2 #ffff000000000000000000000000000000000000 b
groups 1 2
";

/// They come to rest and show their stores.
pub const AT_REST: &str = "calm
show 1 #ffff000000000000000000000000000000000000
show 2 #ffff000000000000000000000000000000000000
";

/// One text of these parts.
pub fn joined(alloc: Global, parts: &[&str]) -> Result<String, Fail> {
    let mut text = String::new(alloc);
    for part in parts {
        text.push_str(*part)?;
    }
    Ok(text)
}
