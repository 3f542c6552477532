//! RIPEMD-160 of a message, in plain Rust.

const ORDER: [[[usize; 16]; 5]; 2] = [
    [
        [0, 1, 2, 3, 4, 5, 6, 7, 8, 9, 10, 11, 12, 13, 14, 15],
        [7, 4, 13, 1, 10, 6, 15, 3, 12, 0, 9, 5, 2, 14, 11, 8],
        [3, 10, 14, 4, 9, 15, 8, 1, 2, 7, 0, 6, 13, 11, 5, 12],
        [1, 9, 11, 10, 0, 8, 12, 4, 13, 3, 7, 15, 14, 5, 6, 2],
        [4, 0, 5, 9, 7, 12, 2, 10, 14, 1, 3, 8, 11, 6, 15, 13],
    ],
    [
        [5, 14, 7, 0, 9, 2, 11, 4, 13, 6, 15, 8, 1, 10, 3, 12],
        [6, 11, 3, 7, 0, 13, 5, 10, 14, 15, 8, 12, 4, 9, 1, 2],
        [15, 5, 1, 3, 7, 14, 6, 9, 11, 8, 12, 2, 10, 0, 4, 13],
        [8, 6, 4, 1, 3, 11, 15, 0, 5, 12, 2, 13, 9, 7, 10, 14],
        [12, 15, 10, 4, 1, 5, 8, 7, 6, 2, 13, 14, 0, 3, 9, 11],
    ],
];

const SHIFT: [[[u32; 16]; 5]; 2] = [
    [
        [11, 14, 15, 12, 5, 8, 7, 9, 11, 13, 14, 15, 6, 7, 9, 8],
        [7, 6, 8, 13, 11, 9, 7, 15, 7, 12, 15, 9, 11, 7, 13, 12],
        [11, 13, 6, 7, 14, 9, 13, 15, 14, 8, 13, 6, 5, 12, 7, 5],
        [11, 12, 14, 15, 14, 15, 9, 8, 9, 14, 5, 6, 8, 6, 5, 12],
        [9, 15, 5, 11, 6, 8, 13, 12, 5, 12, 13, 14, 11, 8, 5, 6],
    ],
    [
        [8, 9, 9, 11, 13, 15, 15, 5, 7, 7, 8, 11, 14, 14, 12, 6],
        [9, 13, 15, 7, 12, 8, 9, 11, 7, 7, 12, 7, 6, 15, 13, 11],
        [9, 7, 15, 11, 8, 6, 6, 14, 12, 13, 5, 14, 13, 13, 7, 5],
        [15, 5, 8, 11, 14, 14, 6, 14, 6, 9, 12, 9, 12, 5, 15, 8],
        [8, 5, 12, 9, 12, 5, 14, 6, 8, 13, 6, 5, 15, 13, 11, 11],
    ],
];

const ADDED: [[u32; 5]; 2] = [
    [0, 0x5a82_7999, 0x6ed9_eba1, 0x8f1b_bcdc, 0xa953_fd4e],
    [0x50a2_8be6, 0x5c4d_d124, 0x6d70_3ef3, 0x7a6d_76e9, 0],
];

fn mixed(function: usize, b: u32, c: u32, d: u32) -> u32 {
    match function {
        0 => b ^ c ^ d,
        1 => (b & c) | (!b & d),
        2 => (b | !c) ^ d,
        3 => (b & d) | (c & !d),
        _ => b ^ (c | !d),
    }
}

fn line(side: usize, start: [u32; 5], words: &[u32; 16]) -> [u32; 5] {
    let [mut a, mut b, mut c, mut d, mut e] = start;
    for round in 0..5 {
        let function = if side == 0 { round } else { 4 - round };
        for step in 0..16 {
            let t = a
                .wrapping_add(mixed(function, b, c, d))
                .wrapping_add(words[ORDER[side][round][step]])
                .wrapping_add(ADDED[side][round])
                .rotate_left(SHIFT[side][round][step])
                .wrapping_add(e);
            (a, e, d, c, b) = (e, d, c.rotate_left(10), b, t);
        }
    }
    [a, b, c, d, e]
}

fn compress(h: &mut [u32; 5], block: &[u8]) {
    let mut words = [0; 16];
    for (word, bytes) in words.iter_mut().zip(block.chunks_exact(4)) {
        *word = u32::from_le_bytes(bytes.try_into().unwrap());
    }
    let left = line(0, *h, &words);
    let right = line(1, *h, &words);
    let next: [u32; 5] = std::array::from_fn(|i| {
        h[(i + 1) % 5]
            .wrapping_add(left[(i + 2) % 5])
            .wrapping_add(right[(i + 3) % 5])
    });
    *h = next;
}

pub fn digest(message: &[u8]) -> [u8; 20] {
    let mut h: [u32; 5] = [0x6745_2301, 0xefcd_ab89, 0x98ba_dcfe, 0x1032_5476, 0xc3d2_e1f0];
    let blocks = message.chunks_exact(64);
    let mut last: Vec<u8> = blocks.remainder().to_vec();
    blocks.for_each(|block| compress(&mut h, block));
    last.push(0x80);
    while last.len() % 64 != 56 {
        last.push(0);
    }
    last.extend((8 * message.len() as u64).to_le_bytes());
    last.chunks_exact(64).for_each(|block| compress(&mut h, block));
    let mut out = [0; 20];
    for (bytes, word) in out.chunks_exact_mut(4).zip(h) {
        bytes.copy_from_slice(&word.to_le_bytes());
    }
    out
}
