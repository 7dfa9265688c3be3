//! SHA-1 by FIPS 180-4: the initial value of 5.3.1, the padding of 5.1.1, the computation of 6.1.2.

const BLOCK: usize = 64;

/// What has been hashed so far, and the bytes of the block that is not full yet.
pub struct State {
    words: [u32; 5],
    open: [u8; BLOCK],
    count: u64,
}

impl State {
    pub fn new() -> State {
        let words = [0x6745_2301, 0xefcd_ab89, 0x98ba_dcfe, 0x1032_5476, 0xc3d2_e1f0];
        State { words, open: [0; BLOCK], count: 0 }
    }

    pub fn update(&mut self, bytes: &[u8]) {
        let held = (self.count % BLOCK as u64) as usize;
        self.count += bytes.len() as u64;
        let mut rest = bytes;
        if held > 0 {
            let (head, tail) = rest.split_at(rest.len().min(BLOCK - held));
            self.open[held..][..head.len()].copy_from_slice(head);
            if held + head.len() < BLOCK {
                return;
            }
            compress(&mut self.words, &self.open);
            rest = tail;
        }
        let (blocks, tail) = rest.as_chunks::<BLOCK>();
        for block in blocks {
            compress(&mut self.words, block);
        }
        self.open[..tail.len()].copy_from_slice(tail);
    }

    pub fn finish(mut self) -> [u8; 20] {
        let bits = self.count.wrapping_mul(8);
        let held = (self.count % BLOCK as u64) as usize;
        let zeros = (2 * BLOCK - 9 - held) % BLOCK;
        let mut padding = [0; BLOCK + 8];
        padding[0] = 0x80;
        padding[1 + zeros..][..8].copy_from_slice(&bits.to_be_bytes());
        self.update(&padding[..9 + zeros]);
        let mut digest = [0; 20];
        for (bytes, word) in digest.chunks_exact_mut(4).zip(self.words) {
            bytes.copy_from_slice(&word.to_be_bytes());
        }
        digest
    }
}

/// The message schedule of a block.
fn schedule(block: &[u8; BLOCK]) -> [u32; 80] {
    let mut w = [0; 80];
    for (word, bytes) in w.iter_mut().zip(block.as_chunks::<4>().0) {
        *word = u32::from_be_bytes(*bytes);
    }
    for t in 16..80 {
        w[t] = (w[t - 3] ^ w[t - 8] ^ w[t - 14] ^ w[t - 16]).rotate_left(1);
    }
    w
}

/// Twenty rounds with one function and one constant.
#[inline(always)]
fn rounds(s: [u32; 5], w: &[u32], k: u32, f: impl Fn(u32, u32, u32) -> u32) -> [u32; 5] {
    let [mut a, mut b, mut c, mut d, mut e] = s;
    for word in w {
        let t = a.rotate_left(5).wrapping_add(f(b, c, d)).wrapping_add(e).wrapping_add(k).wrapping_add(*word);
        (e, d, c, b, a) = (d, c, b.rotate_left(30), a, t);
    }
    [a, b, c, d, e]
}

fn compress(words: &mut [u32; 5], block: &[u8; BLOCK]) {
    let w = schedule(block);
    let s = rounds(*words, &w[..20], 0x5a82_7999, |x, y, z| (x & y) ^ (!x & z));
    let s = rounds(s, &w[20..40], 0x6ed9_eba1, |x, y, z| x ^ y ^ z);
    let s = rounds(s, &w[40..60], 0x8f1b_bcdc, |x, y, z| (x & y) ^ (x & z) ^ (y & z));
    let s = rounds(s, &w[60..], 0xca62_c1d6, |x, y, z| x ^ y ^ z);
    for (word, more) in words.iter_mut().zip(s) {
        *word = word.wrapping_add(more);
    }
}
