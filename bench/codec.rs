//! The codec's work on two long messages in plain Rust, to be measured beside it: the same bytes, the same
//! types and the same tests of each field. Reads lines `WORK NUMBER`, writes a sum for each on
//! standard output and its time in microseconds on standard error.
use std::hint::black_box;
use std::io::{BufRead, stdin};
use std::time::Instant;

#[derive(Clone, Copy)]
struct ClusterKey {
    round: u64,
    principal: u16,
}

#[allow(dead_code)]
#[derive(Clone, Copy)]
enum CopyState {
    Empty,
    Part,
    Whole { key: ClusterKey, writes: u32 },
}

type Row = Box<[bool; 4096]>;

enum Message {
    State { key: ClusterKey, wants: bool, row: Vec<(u16, CopyState)> },
    Progress { key: ClusterKey, wants: bool, done: Row, handed: Row, settled: Row },
}

#[allow(dead_code)]
#[derive(Debug)]
enum Fault {
    BadKind(u8),
    BadField(usize),
    Short,
    Long(usize),
}

/// The bytes that are left to read, and how many there were.
struct Reader<'a> {
    rest: &'a [u8],
    size: usize,
}

impl Reader<'_> {
    /// A field of so many bytes, where its value is allowed.
    fn field<const N: usize, T>(
        &mut self,
        value_of: impl FnOnce(&[u8; N]) -> Option<T>,
    ) -> Result<T, Fault> {
        let (field, rest) = self.rest.split_first_chunk().ok_or(Fault::Short)?;
        let value = value_of(field).ok_or(Fault::BadField(self.size - self.rest.len()))?;
        self.rest = rest;
        Ok(value)
    }

    fn byte(&mut self, least: u8, most: u8) -> Result<u8, Fault> {
        self.field(|[byte]| (least..=most).contains(byte).then_some(*byte))
    }

    fn key(&mut self) -> Result<ClusterKey, Fault> {
        self.field(|bytes| {
            let number = u64::from_be_bytes(*bytes);
            let key = ClusterKey { round: number >> 16, principal: number as u16 };
            (key.round > 0 && key.principal > 0).then_some(key)
        })
    }

    fn state(&mut self) -> Result<CopyState, Fault> {
        if self.byte(1, 2)? == 1 {
            return Ok(CopyState::Part);
        }
        let key = self.key()?;
        let writes = self.field(|bytes| Some(u32::from_be_bytes(*bytes)))?;
        Ok(CopyState::Whole { key, writes })
    }

    fn state_row(&mut self) -> Result<Vec<(u16, CopyState)>, Fault> {
        let count = self.field(|bytes| Some(u16::from_be_bytes(*bytes)).filter(|n| *n <= 4096))?;
        let mut row = Vec::new();
        let mut least = 0;
        for _ in 0..count {
            let partition = self.field(|bytes| {
                Some(u16::from_be_bytes(*bytes)).filter(|p| (least..4096).contains(p))
            })?;
            row.push((partition, self.state()?));
            least = partition + 1;
        }
        Ok(row)
    }

    fn row(&mut self) -> Result<Row, Fault> {
        self.field(|bytes: &[u8; 512]| {
            let mut row = Box::new([false; 4096]);
            for (byte, bits) in bytes.iter().zip(row.chunks_exact_mut(8)) {
                for (place, bit) in bits.iter_mut().enumerate() {
                    *bit = byte >> place & 1 == 1;
                }
            }
            Some(row)
        })
    }
}

fn decode(bytes: &[u8]) -> Result<Message, Fault> {
    let (kind, rest) = bytes.split_first().ok_or(Fault::Short)?;
    let mut reader = Reader { rest, size: bytes.len() };
    let message = match kind {
        6 => Message::State {
            key: reader.key()?,
            wants: reader.byte(0, 1)? == 1,
            row: reader.state_row()?,
        },
        9 => Message::Progress {
            key: reader.key()?,
            wants: reader.byte(0, 1)? == 1,
            done: reader.row()?,
            handed: reader.row()?,
            settled: reader.row()?,
        },
        other => return Err(Fault::BadKind(*other)),
    };
    match reader.rest.len() {
        0 => Ok(message),
        extra => Err(Fault::Long(extra)),
    }
}

fn put_key(out: &mut Vec<u8>, key: ClusterKey) {
    out.extend_from_slice(&(key.round << 16 | u64::from(key.principal)).to_be_bytes());
}

fn put_row(out: &mut Vec<u8>, row: &Row) {
    out.extend(row.chunks_exact(8).map(|bits| {
        bits.iter().rev().fold(0, |byte, bit| byte << 1 | u8::from(*bit))
    }));
}

fn put_state(out: &mut Vec<u8>, state: &CopyState) {
    match state {
        CopyState::Empty => out.push(0),
        CopyState::Part => out.push(1),
        CopyState::Whole { key, writes } => {
            out.push(2);
            put_key(out, *key);
            out.extend_from_slice(&writes.to_be_bytes());
        }
    }
}

fn encode(message: &Message) -> Vec<u8> {
    let mut out = Vec::new();
    match message {
        Message::State { key, wants, row } => {
            out.push(6);
            put_key(&mut out, *key);
            out.push(u8::from(*wants));
            out.extend_from_slice(&(row.len() as u16).to_be_bytes());
            for (partition, state) in row {
                out.extend_from_slice(&partition.to_be_bytes());
                put_state(&mut out, state);
            }
        }
        Message::Progress { key, wants, done, handed, settled } => {
            out.push(9);
            put_key(&mut out, *key);
            out.push(u8::from(*wants));
            for row in [done, handed, settled] {
                put_row(&mut out, row);
            }
        }
    }
    out
}

const KEY: [u8; 8] = [0, 0, 0, 0, 0, 1, 0, 2];

/// The longest State: the whole copies of all partitions, in 61,452 bytes.
fn state() -> Vec<u8> {
    let mut bytes = vec![6];
    bytes.extend(KEY);
    bytes.extend([1, 16, 0]);
    for partition in 0..4096u16 {
        bytes.extend(partition.to_be_bytes());
        bytes.push(2);
        bytes.extend(KEY);
        bytes.extend(u32::from(partition).to_be_bytes());
    }
    bytes
}

/// A Progress whose rows have bits of no order.
fn progress() -> Vec<u8> {
    let mut bytes = vec![9];
    bytes.extend(KEY);
    bytes.push(0);
    bytes.extend((0..1536u32).map(|place| place.wrapping_mul(2_654_435_761).to_be_bytes()[0]));
    bytes
}

/// How many entries a State has, or how many rows of a Progress have the bit of partition 0.
fn seen(message: &Message) -> u64 {
    match message {
        Message::State { row, .. } => row.len() as u64,
        Message::Progress { done, handed, settled, .. } => {
            [done, handed, settled].iter().map(|row| u64::from(row[0])).sum()
        }
    }
}

fn reads(bytes: &[u8], times: u32) -> u64 {
    (0..times).map(|_| seen(&black_box(decode(black_box(bytes)).unwrap()))).sum()
}

fn writes(bytes: &[u8], times: u32) -> u64 {
    let message = decode(bytes).unwrap();
    (0..times).map(|_| black_box(encode(black_box(&message))).len() as u64).sum()
}

fn main() {
    let (state, progress) = (state(), progress());
    for line in stdin().lock().lines() {
        let line = line.unwrap();
        let (work, number) = line.split_once(' ').unwrap();
        let number = number.parse().unwrap();
        let start = Instant::now();
        let sum = match work {
            "read-state" => reads(&state, number),
            "write-state" => writes(&state, number),
            "read-progress" => reads(&progress, number),
            _ => writes(&progress, number),
        };
        println!("{work} {sum}");
        eprintln!("{work} {}", start.elapsed().as_micros());
    }
}
