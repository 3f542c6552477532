//! The work of the parts of a node in plain Rust, to be measured beside them: the same rows, records and
//! transactions on the same layout. Reads lines `WORK TIMES`, writes a sum for each on standard output
//! and its time in microseconds on standard error.
mod lists;

use lists::Ranks;
use std::collections::{HashMap, VecDeque};
use std::hint::black_box;
use std::io::{BufRead, stdin};
use std::time::Instant;

const PARTITIONS: usize = 4096;
const RECORDS: u32 = 100_000;
const BATCH_LIMIT: usize = 64;
const ME: u16 = 1;
const KEY: ClusterKey = ClusterKey { round: 5, principal: 16 };

#[derive(Clone, Copy, PartialEq, Eq, PartialOrd, Ord)]
struct ClusterKey {
    round: u64,
    principal: u16,
}

/// At most sixteen nodes.
#[derive(Clone, Copy)]
struct NodeList {
    ids: [u16; 16],
    len: usize,
}

impl NodeList {
    fn of(nodes: &[u16]) -> NodeList {
        let mut ids = [0; 16];
        ids[..nodes.len()].copy_from_slice(nodes);
        NodeList { ids, len: nodes.len() }
    }

    fn as_slice(&self) -> &[u16] {
        &self.ids[..self.len]
    }

    fn remove(&mut self, node: u16) {
        if let Some(place) = self.as_slice().iter().position(|n| *n == node) {
            self.ids.copy_within(place + 1..self.len, place);
            self.len -= 1;
        }
    }
}

#[derive(Clone, Copy, PartialEq)]
struct Role {
    rack: u8,
    quiesced: bool,
}

const PLAIN: Role = Role { rack: 0, quiesced: false };

// Heartbeats.

#[allow(dead_code)]
#[derive(Clone, Copy)]
struct Beat {
    view: ClusterKey,
    promised: ClusterKey,
    hears: NodeList,
    role: Role,
}

struct Entry {
    node: u16,
    age: u8,
    beat: Beat,
}

/// The last heartbeats of the others, in descending order, and the neighbours at the last tick.
struct Adjacency {
    heard: Vec<Entry>,
    set: Vec<(u16, Role)>,
    quiet: u8,
}

impl Adjacency {
    fn heard(&mut self, node: u16, beat: &Beat) {
        let entry = Entry { node, age: 0, beat: *beat };
        match self.heard.binary_search_by(|e| node.cmp(&e.node)) {
            Ok(place) => self.heard[place] = entry,
            Err(place) if self.heard.len() < 15 => self.heard.insert(place, entry),
            Err(_) => {}
        }
    }

    fn tick(&mut self) {
        self.heard.retain_mut(|e| {
            e.age += 1;
            e.age < 10
        });
        let set = self.neighbours();
        self.quiet = if set == self.set { (self.quiet + 1).min(2) } else { 0 };
        self.set = set;
    }

    /// Those that hear the node, and the node itself.
    fn neighbours(&self) -> Vec<(u16, Role)> {
        let mut set: Vec<_> = self
            .heard
            .iter()
            .filter(|e| e.beat.hears.as_slice().contains(&ME))
            .map(|e| (e.node, e.beat.role))
            .collect();
        let place = set.partition_point(|(node, _)| *node > ME);
        set.insert(place, (ME, PLAIN));
        set
    }
}

fn beats(members: &[u16], rounds: u32) -> u64 {
    let mut hearing = Adjacency { heard: Vec::with_capacity(16), set: Vec::new(), quiet: 0 };
    let mut beat = Beat { view: KEY, promised: KEY, hears: NodeList::of(members), role: PLAIN };
    let mut sum = 0;
    for round in 0..rounds {
        beat.promised.round = u64::from(round);
        for node in members.iter().filter(|node| **node != ME) {
            hearing.heard(*node, black_box(&beat));
        }
        hearing.tick();
        sum += u64::from(hearing.quiet);
    }
    sum
}

// An exchange.

#[allow(dead_code)]
#[derive(Clone, Copy, PartialEq)]
enum CopyState {
    Empty,
    Part,
    Whole { key: ClusterKey, writes: u32 },
}

impl CopyState {
    fn whole_key(&self) -> Option<ClusterKey> {
        match self {
            CopyState::Whole { key, .. } => Some(*key),
            _ => None,
        }
    }
}

type Row = Vec<(u16, CopyState)>;

struct MapEntry {
    #[allow(dead_code)]
    list: NodeList,
    acting: u16,
    #[allow(dead_code)]
    all_empty: bool,
}

/// The lists of all partitions one after another, the rows that came, and who acts once all have.
struct Exchange {
    members: Vec<u16>,
    lists: Vec<u16>,
    rows: Vec<(u16, Row)>,
    served: Vec<(u16, bool)>,
}

impl Exchange {
    fn begin(members: &[u16], row: Row) -> Exchange {
        let ranks = Ranks::of(members);
        let mut lists = Vec::with_capacity(members.len() * PARTITIONS);
        for p in 0..PARTITIONS {
            lists.extend(ranks.list(p as u16).iter().map(|(_, n)| n));
        }
        let mut rows = Vec::with_capacity(members.len());
        rows.push((ME, row));
        let served = Vec::with_capacity(PARTITIONS);
        Exchange { members: members.to_vec(), lists, rows, served }
    }

    fn on_state(&mut self, from: u16, row: Row) {
        if self.rows.iter().all(|(node, _)| *node != from) {
            self.rows.push((from, row));
            if self.rows.len() == self.members.len() {
                self.fill();
            }
        }
    }

    fn list(&self, p: usize) -> &[u16] {
        let size = self.members.len();
        &self.lists[p * size..][..size]
    }

    /// Reads each row once.
    fn fill(&mut self) {
        let mut places = [0; 16];
        let mut states = [(0, CopyState::Empty); 16];
        for p in 0..PARTITIONS {
            for (((node, row), place), state) in
                self.rows.iter().zip(&mut places).zip(&mut states)
            {
                *state = match row.get(*place) {
                    Some((at, state)) if usize::from(*at) == p => {
                        *place += 1;
                        (*node, *state)
                    }
                    _ => (*node, CopyState::Empty),
                };
            }
            let states = &states[..self.rows.len()];
            let all_empty = states.iter().all(|(_, state)| *state == CopyState::Empty);
            self.served.push((acting(states, self.list(p)), all_empty));
        }
    }

    fn map(&self, p: usize) -> MapEntry {
        let (acting, all_empty) = self.served[p];
        MapEntry { list: NodeList::of(self.list(p)), acting, all_empty }
    }
}

/// The first node of the list whose copy was whole under the greatest key.
fn acting(states: &[(u16, CopyState)], list: &[u16]) -> u16 {
    let Some(greatest) = states.iter().filter_map(|(_, state)| state.whole_key()).max() else {
        return list[0];
    };
    let is_wholest = |n: &&u16| {
        states.iter().any(|(node, state)| node == *n && state.whole_key() == Some(greatest))
    };
    *list.iter().find(is_wholest).unwrap()
}

fn row(place: u64) -> Row {
    let state = |p: u16| CopyState::Whole {
        key: ClusterKey { round: 1 + (u64::from(p) + place) % 3, principal: 1 },
        writes: u32::from(p),
    };
    (0..PARTITIONS as u16).map(|p| (p, state(p))).collect()
}

fn exchange(members: &[u16], rows: &[Row]) -> u64 {
    let (own, others) = rows.split_last().unwrap();
    let mut exchange = Exchange::begin(members, own.clone());
    for (from, row) in members.iter().zip(others) {
        exchange.on_state(*from, row.clone());
    }
    (0..PARTITIONS).map(|p| u64::from(black_box(exchange.map(p)).acting)).sum()
}

// Progress.

/// A bit for each partition.
type Bits = [u8; PARTITIONS / 8];

/// The done row of each other member, in how many of them a bit is set, and the other bits.
struct Progress {
    told: Vec<(u16, Box<Bits>)>,
    known: Vec<u8>,
    own: Box<Bits>,
    handed: Box<Bits>,
    settled: Box<Bits>,
}

impl Progress {
    fn heard(&mut self, from: u16, done: &Bits, handed: &Bits, settled: &Bits) {
        let Some((_, told)) = self.told.iter_mut().find(|(node, _)| *node == from) else {
            return;
        };
        for ((counts, before), after) in self.known.chunks_exact_mut(8).zip(&mut **told).zip(done) {
            for (bit, count) in counts.iter_mut().enumerate() {
                *count = *count - (*before >> bit) % 2 + (*after >> bit) % 2;
            }
            *before = *after;
        }
        or(&mut self.handed, handed);
        or(&mut self.settled, settled);
    }

    fn all_done(&self, p: usize) -> bool {
        is_set(&self.own, p) && usize::from(self.known[p]) == self.told.len()
    }
}

fn or(bits: &mut Bits, other: &Bits) {
    for (bit, other) in bits.iter_mut().zip(other) {
        *bit |= other;
    }
}

fn is_set(bits: &Bits, p: usize) -> bool {
    (bits[p / 8] >> (p % 8)) % 2 == 1
}

/// Every other bit, from that one on.
fn bits(first: usize) -> Bits {
    [0x55 << first; PARTITIONS / 8]
}

fn progress(members: &[u16], rounds: u32) -> u64 {
    let rows = [bits(0), bits(1)];
    let clear = || Box::new([0; PARTITIONS / 8]);
    let mut known = Progress {
        told: members.iter().filter(|n| **n != ME).map(|n| (*n, clear())).collect(),
        known: vec![0; PARTITIONS],
        own: Box::new(bits(0)),
        handed: clear(),
        settled: clear(),
    };
    let mut sum = 0;
    for round in 0..rounds {
        let row = black_box(&rows[round as usize % 2]);
        for node in members.iter().filter(|node| **node != ME) {
            known.heard(*node, row, row, row);
        }
        sum += u64::from(known.all_done(0));
    }
    sum
}

// Records and their batches.

type Digest = [u8; 20];

#[allow(dead_code)]
#[derive(Clone, PartialEq, Eq, PartialOrd, Ord)]
enum Body {
    Tombstone,
    Value(Vec<u8>),
}

#[derive(Clone, PartialEq, Eq, PartialOrd, Ord)]
struct Version {
    lut: u64,
    generation: u32,
    body: Body,
}

fn partition_of(digest: &Digest) -> usize {
    usize::from(u16::from_le_bytes([digest[0], digest[1]])) % PARTITIONS
}

fn record(i: u32) -> Digest {
    let mut digest = [0; 20];
    digest[..4].copy_from_slice(&i.wrapping_mul(2_654_435_761).to_le_bytes());
    digest[4..8].copy_from_slice(&i.to_le_bytes());
    digest
}

fn version(i: u32) -> Version {
    Version { lut: 0, generation: 1, body: Body::Value(vec![b'v', i as u8]) }
}

/// The records of each partition, in the order of their digests.
type Store = Vec<Vec<(Digest, Version)>>;

fn store() -> Store {
    let mut store: Store = (0..PARTITIONS).map(|_| Vec::new()).collect();
    for i in 0..RECORDS {
        let digest = record(i);
        let copy = &mut store[partition_of(&digest)];
        if let Err(place) = copy.binary_search_by(|(d, _)| d.cmp(&digest)) {
            copy.insert(place, (digest, version(i)));
        }
    }
    store
}

#[derive(Clone)]
struct Batch {
    #[allow(dead_code)]
    key: ClusterKey,
    number: u32,
    records: VecDeque<(Digest, Version)>,
}

struct Target {
    node: u16,
    batches: u32,
    pending: VecDeque<Digest>,
    out: Option<Batch>,
}

/// What goes to the other members, and how many digests of each partition are pending.
struct Emigration {
    targets: Vec<Target>,
    counts: Vec<u32>,
}

impl Emigration {
    fn begin(store: &Store, members: &[u16], sends: impl Fn(usize, u16) -> bool) -> Emigration {
        let mut counts = vec![0; PARTITIONS];
        let mut targets = Vec::with_capacity(members.len());
        for node in members.iter().copied().filter(|node| *node != ME) {
            let mut digests = Vec::new();
            for (p, copy) in store.iter().enumerate() {
                if !copy.is_empty() && sends(p, node) {
                    digests.extend(copy.iter().map(|(digest, _)| *digest));
                    counts[p] += copy.len() as u32;
                }
            }
            digests.sort_unstable();
            targets.push(Target { node, batches: 0, pending: digests.into(), out: None });
        }
        Emigration { targets, counts }
    }

    fn target(&mut self, to: u16) -> Option<&mut Target> {
        self.targets.iter_mut().find(|target| target.node == to)
    }

    fn next_batch(&mut self, to: u16, store: &Store) -> Option<Batch> {
        let target = self.target(to)?;
        if target.out.is_some() || target.pending.is_empty() {
            return target.out.clone();
        }
        let held = |digest: &Digest| {
            let copy = &store[partition_of(digest)];
            let place = copy.binary_search_by(|(d, _)| d.cmp(digest)).ok()?;
            Some(copy[place].clone())
        };
        let records = target.pending.iter().take(BATCH_LIMIT).filter_map(held).collect();
        Some(Batch { key: KEY, number: target.batches + 1, records })
    }

    fn sent(&mut self, to: u16, batch: Batch) {
        if let Some(target) = self.target(to) {
            target.batches = batch.number;
            target.out = Some(batch);
        }
    }

    fn on_ack(&mut self, from: u16, number: u32) -> bool {
        let Some(target) = self.targets.iter_mut().find(|target| target.node == from) else {
            return false;
        };
        let Some(batch) = target.out.take_if(|batch| batch.number == number) else {
            return false;
        };
        for (digest, _) in &batch.records {
            self.counts[partition_of(digest)] -= 1;
        }
        target.pending.drain(..batch.records.len());
        true
    }
}

fn emigration(store: &Store, members: &[u16]) -> u64 {
    let to = members[0];
    let mut going = Emigration::begin(store, members, |_, node| node == to);
    let mut sum = 0;
    while let Some(batch) = going.next_batch(to, store) {
        let (number, count) = (batch.number, batch.records.len() as u64);
        going.sent(to, batch);
        if going.on_ack(to, number) {
            sum += count;
        }
    }
    sum
}

// Transactions.

#[allow(dead_code)]
enum Want {
    Get,
    Put(Vec<u8>),
    Del,
}

#[allow(dead_code)]
struct Txn {
    id: u32,
    want: Want,
    digest: Digest,
    awaiting: NodeList,
    best: Option<Version>,
    applied: bool,
}

/// The open transactions by number, from the first that is open on; by digest; and by partition.
struct Txns {
    slots: VecDeque<Option<Txn>>,
    opened: u32,
    by_digest: HashMap<Digest, u32>,
    by_partition: Vec<u32>,
}

impl Txns {
    fn begin(&mut self, digest: Digest, want: Want, awaiting: NodeList) -> Option<u32> {
        if self.by_digest.contains_key(&digest) {
            return None;
        }
        self.opened += 1;
        let id = self.opened;
        self.slots.push_back(Some(Txn { id, want, digest, awaiting, best: None, applied: false }));
        self.by_digest.insert(digest, id);
        self.by_partition[partition_of(&digest)] += 1;
        Some(id)
    }

    fn slot(&mut self, id: u32) -> Option<&mut Option<Txn>> {
        let before = self.opened as usize - self.slots.len();
        self.slots.get_mut((id as usize).checked_sub(before + 1)?)
    }

    fn get(&mut self, id: u32) -> Option<&mut Txn> {
        self.slot(id)?.as_mut()
    }

    /// Whether it was the last answer.
    fn on_answer(&mut self, from: u16, id: u32, version: Option<Version>) -> bool {
        let Some(txn) = self.get(id) else { return false };
        if txn.applied || !txn.awaiting.as_slice().contains(&from) {
            return false;
        }
        if version > txn.best {
            txn.best = version;
        }
        txn.awaiting.remove(from);
        txn.awaiting.len == 0
    }

    fn write_applied(&mut self, id: u32, to: NodeList) {
        if let Some(txn) = self.get(id) {
            txn.applied = true;
            txn.awaiting = to;
        }
    }

    /// Whether it was the last acknowledgement.
    fn acked(&mut self, from: u16, id: u32) -> bool {
        let Some(txn) = self.get(id) else { return false };
        if !txn.applied || !txn.awaiting.as_slice().contains(&from) {
            return false;
        }
        txn.awaiting.remove(from);
        txn.awaiting.len == 0
    }

    fn finish(&mut self, id: u32) {
        let Some(txn) = self.slot(id).and_then(Option::take) else { return };
        while let Some(None) = self.slots.front() {
            self.slots.pop_front();
        }
        self.by_digest.remove(&txn.digest);
        self.by_partition[partition_of(&txn.digest)] -= 1;
    }
}

fn transactions() -> u64 {
    let mut txns = Txns {
        slots: VecDeque::new(),
        opened: 0,
        by_digest: HashMap::new(),
        by_partition: vec![0; PARTITIONS],
    };
    let awaiting = NodeList::of(&[ME]);
    let mut sum = 0;
    for i in 0..RECORDS {
        black_box(txns.begin(record(i), Want::Del, awaiting));
    }
    for id in 1..=RECORDS {
        sum += u64::from(txns.on_answer(ME, id, Some(version(id))));
    }
    for id in 1..=RECORDS {
        txns.write_applied(id, awaiting);
        if txns.acked(ME, id) {
            txns.finish(id);
            sum += 1;
        }
    }
    sum
}

fn main() {
    let members: Vec<u16> = (1..=16).rev().collect();
    let rows: Vec<Row> = (0..16).map(row).collect();
    let store = store();
    for line in stdin().lock().lines() {
        let line = line.unwrap();
        let (work, times) = line.split_once(' ').unwrap();
        let times = times.parse().unwrap();
        let start = Instant::now();
        let sum: u64 = match work {
            "beats" => beats(&members, times),
            "exchange" => (0..times).map(|_| exchange(&members, &rows)).sum(),
            "progress" => progress(&members, times),
            "batches" => (0..times).map(|_| emigration(&store, &members)).sum(),
            _ => (0..times).map(|_| transactions()).sum(),
        };
        println!("{work} {sum}");
        eprintln!("{work} {}", start.elapsed().as_micros());
    }
}
