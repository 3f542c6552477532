//! The lists of partitions over plain nodes, for the benches.

fn fnv1a(bytes: &[u8]) -> u64 {
    bytes.iter().fold(0xcbf2_9ce4_8422_2325, |h, byte| {
        (h ^ u64::from(*byte)).wrapping_mul(0x100_0000_01b3)
    })
}

fn mix(h: u32, bytes: &[u8]) -> u32 {
    bytes.iter().fold(h, |h, byte| {
        let h = h.wrapping_add(u32::from(*byte));
        let h = h.wrapping_add(h << 10);
        h ^ (h >> 6)
    })
}

fn finish(h: u32) -> u32 {
    let h = h.wrapping_add(h << 3);
    let h = h ^ (h >> 11);
    h.wrapping_add(h << 15)
}

/// The nodes, each of which was hashed once.
pub struct Ranks {
    nodes: Vec<(u16, u32)>,
}

impl Ranks {
    pub fn of(nodes: &[u16]) -> Ranks {
        let hash = |n: u16| mix(0, &fnv1a(&u64::from(n).to_le_bytes()).to_le_bytes());
        Ranks { nodes: nodes.iter().map(|n| (*n, hash(*n))).collect() }
    }

    /// The nodes by their places in the partition.
    pub fn list(&self, p: u16) -> Vec<(u32, u16)> {
        let partition = fnv1a(&p.to_le_bytes()).to_le_bytes();
        let mut list: Vec<(u32, u16)> =
            self.nodes.iter().map(|(n, h)| (finish(mix(*h, &partition)), *n)).collect();
        list.sort_unstable();
        list
    }
}
