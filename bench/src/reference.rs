//! A second implementation of the whole, written apart from the library from its documents (docs/) and the public standards, to hold the library against.
//! It is slow and plain: masks are counted anew for every block, and a message is opened by sealing what it would be.

use std::sync::OnceLock;

pub type Block = [u8; 16];

fn xor(a: Block, b: Block) -> Block {
    std::array::from_fn(|i| a[i] ^ b[i])
}

/// The product in the field of 256 elements, bit by bit.
fn product(a: u8, b: u8) -> u8 {
    let mut sum = 0u16;
    for i in 0..8 {
        if b >> i & 1 == 1 {
            sum ^= (a as u16) << i;
        }
    }
    for i in (8..16).rev() {
        if sum >> i & 1 == 1 {
            sum ^= 0x11b << (i - 8);
        }
    }
    sum as u8
}

struct Tables {
    substitute: [u8; 256],
    restore: [u8; 256],
}

/// The substitution by its rule: the inverse in the field, then the sum of five of its bits and a bit of 0x63.
fn tables() -> &'static Tables {
    static TABLES: OnceLock<Tables> = OnceLock::new();
    TABLES.get_or_init(|| {
        let mut made = Tables { substitute: [0; 256], restore: [0; 256] };
        for b in 0..=255u8 {
            let inverse = (0..=255u8).find(|&c| product(b, c) == 1).unwrap_or(0);
            let mut out = 0x63;
            for turn in 0..5 {
                out ^= inverse.rotate_left(turn);
            }
            made.substitute[b as usize] = out;
            made.restore[out as usize] = b;
        }
        made
    })
}

/// The 44 words of the expanded key, as eleven round keys.
fn aes_keys(key: Block) -> Vec<Block> {
    let table = &tables().substitute;
    let mut words: Vec<[u8; 4]> = key.chunks(4).map(|w| w.try_into().unwrap()).collect();
    let mut constant = 1;
    for i in 4..44 {
        let mut w = words[i - 1];
        if i % 4 == 0 {
            w.rotate_left(1);
            w = w.map(|b| table[b as usize]);
            w[0] ^= constant;
            constant = product(constant, 2);
        }
        words.push(std::array::from_fn(|j| words[i - 4][j] ^ w[j]));
    }
    words.chunks(4).map(|four| four.concat().try_into().unwrap()).collect()
}

/// Byte 4c + r of the block is in row r and column c; here the state stays the block.
fn mix(s: Block, by: [u8; 4]) -> Block {
    std::array::from_fn(|i| {
        let (c, r) = (i / 4, i % 4);
        (0..4).fold(0, |sum, j| sum ^ product(by[(j + 4 - r) % 4], s[4 * c + j]))
    })
}

fn aes_forward(keys: &[Block], block: Block) -> Block {
    let mut s = xor(block, keys[0]);
    for round in 1..=10 {
        s = s.map(|b| tables().substitute[b as usize]);
        s = std::array::from_fn(|i| s[(i + 4 * (i % 4)) % 16]);
        if round < 10 {
            s = mix(s, [2, 3, 1, 1]);
        }
        s = xor(s, keys[round]);
    }
    s
}

fn aes_backward(keys: &[Block], block: Block) -> Block {
    let mut s = block;
    for round in (1..=10).rev() {
        s = xor(s, keys[round]);
        if round < 10 {
            s = mix(s, [14, 11, 13, 9]);
        }
        s = std::array::from_fn(|i| s[(i + 16 - 4 * (i % 4)) % 16]);
        s = s.map(|b| tables().restore[b as usize]);
    }
    xor(s, keys[0])
}

fn word(bytes: &[u8]) -> u64 {
    bytes.iter().fold(0, |n, &b| n << 8 | b as u64)
}

fn block_of(x: u64, y: u64) -> Block {
    [x.to_be_bytes(), y.to_be_bytes()].concat().try_into().unwrap()
}

fn speck_keys(key: Block) -> Vec<u64> {
    let (mut l, mut k) = (word(&key[..8]), word(&key[8..]));
    let mut keys = vec![k];
    for i in 0..31 {
        l = l.rotate_right(8).wrapping_add(k) ^ i;
        k = k.rotate_left(3) ^ l;
        keys.push(k);
    }
    keys
}

fn speck_forward(keys: &[u64], block: Block) -> Block {
    let (mut x, mut y) = (word(&block[..8]), word(&block[8..]));
    for k in keys {
        x = x.rotate_right(8).wrapping_add(y) ^ k;
        y = y.rotate_left(3) ^ x;
    }
    block_of(x, y)
}

fn speck_backward(keys: &[u64], block: Block) -> Block {
    let (mut x, mut y) = (word(&block[..8]), word(&block[8..]));
    for k in keys.iter().rev() {
        y = (y ^ x).rotate_right(3);
        x = (x ^ k).wrapping_sub(y).rotate_left(8);
    }
    block_of(x, y)
}

pub enum Cipher {
    Aes(Vec<Block>),
    Speck(Vec<u64>),
}

impl Cipher {
    /// 1 is AES-128, 2 Speck128/128.
    pub fn of(number: u8, key: Block) -> Cipher {
        match number {
            1 => Cipher::Aes(aes_keys(key)),
            2 => Cipher::Speck(speck_keys(key)),
            _ => panic!("no cipher has the number {number}"),
        }
    }

    pub fn forward(&self, block: Block) -> Block {
        match self {
            Cipher::Aes(keys) => aes_forward(keys, block),
            Cipher::Speck(keys) => speck_forward(keys, block),
        }
    }

    pub fn backward(&self, block: Block) -> Block {
        match self {
            Cipher::Aes(keys) => aes_backward(keys, block),
            Cipher::Speck(keys) => speck_backward(keys, block),
        }
    }
}

/// Doubling, bit by bit from the right: a bit moves one place to the left.
fn doubled(b: Block) -> Block {
    let mut out: Block = std::array::from_fn(|i| b[i] << 1 | b.get(i + 1).map_or(0, |n| n >> 7));
    if b[0] >= 0x80 {
        out[15] ^= 0x87;
    }
    out
}

fn undoubled(b: Block) -> Block {
    let odd = b[15] & 1 == 1;
    let mut from = b;
    if odd {
        from[15] ^= 0x87;
    }
    let mut out: Block = std::array::from_fn(|i| from[i] >> 1 | if i > 0 { from[i - 1] << 7 } else { 0 });
    if odd {
        out[0] |= 0x80;
    }
    out
}

fn four(b: Block) -> [u32; 4] {
    std::array::from_fn(|i| word(&b[4 * i..4 * i + 4]) as u32)
}

fn from_four(w: [u32; 4]) -> Block {
    w.map(u32::to_be_bytes).concat().try_into().unwrap()
}

fn stepped(b: Block) -> Block {
    let [a3, a2, a1, a0] = four(b);
    let alpha = if a3 >= 0x8000_0000 { (a3 << 1) ^ 0x0a00_0021 } else { a3 << 1 };
    from_four([a2 ^ a3, a1, a0 ^ a3, alpha])
}

fn unstepped(b: Block) -> Block {
    let [b3, b2, b1, b0] = four(b);
    let a3 = if b0 & 1 == 1 { (b0 ^ 0x0a00_0021) >> 1 | 0x8000_0000 } else { b0 >> 1 };
    from_four([a3, b3 ^ a3, b2, b1 ^ a3])
}

/// A cipher under a key, and a masking by its number: 1 is doubling, 2 the tower.
pub struct Pair {
    pub cipher: Cipher,
    pub masking: u8,
}

impl Pair {
    /// A block after i steps of the masking, or after -i backs.
    fn gamma(&self, from: Block, i: i64) -> Block {
        let mut mask = from;
        for _ in 0..i.abs() {
            mask = match (self.masking, i > 0) {
                (1, true) => doubled(mask),
                (1, false) => undoubled(mask),
                (_, true) => stepped(mask),
                (_, false) => unstepped(mask),
            };
        }
        mask
    }

    fn delta_zero(&self) -> Block {
        self.cipher.forward(number(1))
    }

    fn delta_one(&self) -> Block {
        self.gamma(self.delta_zero(), 1)
    }

    pub fn header_tag(&self, header: &[u8]) -> Block {
        if header.is_empty() {
            return [0; 16];
        }
        let kappa = self.cipher.forward(self.delta_zero());
        let pieces = cut(header);
        let m = pieces.len();
        let last = pieces[m - 1];
        let full = last.len() == 16;
        if m == 1 {
            let mask = self.gamma(kappa, if full { -2 } else { -1 });
            return self.cipher.forward(xor(filled(last, 0x80), mask));
        }
        let mut sum = filled(last, 0x80);
        for (i, piece) in pieces[..m - 1].iter().enumerate() {
            let block = xor(filled(piece, 0), self.gamma(kappa, i as i64 + 1));
            sum = xor(sum, self.cipher.forward(block));
        }
        if !full {
            sum = xor(sum, self.gamma(kappa, m as i64));
        }
        self.cipher.forward(sum)
    }

    /// Sealed bytes and tag. Opening is the same with the two maps swapped and the sums taken of the other side.
    pub fn seal(&self, mode: u8, nonce: Block, header: &[u8], message: &[u8]) -> (Vec<u8>, Block) {
        let pieces = cut(message);
        let m = pieces.len();
        let start = self.cipher.forward(xor(nonce, self.delta_one()));
        let mut sealed = Vec::new();
        let mut sum = [0; 16];
        for (i, piece) in pieces[..m - 1].iter().enumerate() {
            let mask = self.gamma(start, i as i64 + 1);
            let plain = filled(piece, 0);
            sealed.extend(xor(self.through(mode, xor(plain, mask)), mask));
            sum = xor(sum, plain);
        }
        let last = pieces[m - 1];
        let pad = self.pad(start, m, last.len());
        let end: Vec<u8> = last.iter().zip(pad).map(|(a, b)| a ^ b).collect();
        let terms = [sum, filled(&end, 0), self.gamma(start, m as i64 + 1), self.delta_one(), pad];
        let tag = self.cipher.forward(terms.into_iter().fold([0; 16], xor));
        sealed.extend(end);
        (sealed, xor(tag, self.header_tag(header)))
    }

    fn pad(&self, start: Block, m: usize, bytes: usize) -> Block {
        self.cipher.forward(xor(number(8 * bytes as u8), self.gamma(start, m as i64)))
    }

    /// A block through the mode's map.
    fn through(&self, mode: u8, block: Block) -> Block {
        if mode == 1 { self.cipher.forward(block) } else { self.cipher.backward(block) }
    }

    /// The only message that can seal to these bytes, if it does.
    pub fn open(&self, mode: u8, nonce: Block, header: &[u8], sealed: &[u8], tag: Block) -> Option<Vec<u8>> {
        let pieces = cut(sealed);
        let m = pieces.len();
        let start = self.cipher.forward(xor(nonce, self.delta_one()));
        let mut message = Vec::new();
        for (i, piece) in pieces[..m - 1].iter().enumerate() {
            let mask = self.gamma(start, i as i64 + 1);
            message.extend(xor(self.through(3 - mode, xor(filled(piece, 0), mask)), mask));
        }
        let pad = self.pad(start, m, pieces[m - 1].len());
        message.extend(pieces[m - 1].iter().zip(pad).map(|(a, b)| a ^ b));
        (self.seal(mode, nonce, header, &message) == (sealed.to_vec(), tag)).then_some(message)
    }
}

fn number(n: u8) -> Block {
    let mut block = [0; 16];
    block[15] = n;
    block
}

/// The pieces of a string: the empty one has one, of no bytes.
fn cut(bytes: &[u8]) -> Vec<&[u8]> {
    if bytes.is_empty() { vec![bytes] } else { bytes.chunks(16).collect() }
}

fn filled(piece: &[u8], with: u8) -> Block {
    let mut all = piece.to_vec();
    all.push(with);
    all.resize(17, 0);
    all[..16].try_into().unwrap()
}

/// A refusal: its number and its place.
#[derive(Clone, Copy, PartialEq, Eq, Debug)]
pub struct Refusal(pub u8, pub u8);

fn head(mode: u8, h: usize, p: usize, sender: u8, frame_number: u64) -> Vec<u8> {
    let mut head = vec![mode, 0];
    for n in [h, p, 32, 32 + h, 32 + h + p] {
        head.extend((n as u16).to_be_bytes());
    }
    head.extend([0; 4]);
    head.push(sender);
    head.extend([0; 9]);
    head.extend(&frame_number.to_be_bytes()[2..]);
    head
}

/// The frame that a message is sealed into, for an output of so many bytes.
pub fn seal_frame(pair: &Pair, sender: u8, frame_number: u64, mode: u8, clear: &[u8], message: &[u8], room: usize) -> Result<Vec<u8>, Refusal> {
    let whole = 48 + clear.len() + message.len();
    let checks = [(mode != 1 && mode != 2, 7), (clear.len() > 1024, 8), (message.len() > 1024, 9), (room < whole, 10)];
    if let Some((_, refusal)) = checks.iter().find(|(fails, _)| *fails) {
        return Err(Refusal(*refusal, 0));
    }
    let mut frame = head(mode, clear.len(), message.len(), sender, frame_number);
    frame.extend(clear);
    let nonce = frame[16..32].try_into().unwrap();
    let (sealed, tag) = pair.seal(mode, nonce, &frame, message);
    frame.extend(sealed);
    frame.extend(tag);
    Ok(frame)
}

/// The message of a frame, for an output of so many bytes; refusal 2 says too how many bytes it zeroes.
pub fn open_frame(pair: &Pair, frame: &[u8], room: usize) -> Result<Vec<u8>, (Refusal, usize)> {
    let refused = |n, place| Err((Refusal(n, place), 0));
    if frame.len() < 48 {
        return refused(11, 0);
    }
    if frame[0] != 1 && frame[0] != 2 {
        return refused(7, 0);
    }
    let at = |place: usize, len: usize| word(&frame[place..place + len]);
    let (h, p) = (at(2, 2), at(4, 2));
    let rules = [
        (1, at(1, 1) == 0),
        (2, h <= 1024),
        (4, p <= 1024),
        (6, at(6, 2) == 32),
        (8, at(8, 2) == 32 + h),
        (10, at(10, 2) == 32 + h + p),
        (12, at(12, 4) == 0),
        (17, at(17, 7) == 0),
        (24, at(24, 2) == 0),
    ];
    if let Some((place, _)) = rules.iter().find(|(_, holds)| !holds) {
        return refused(12, *place);
    }
    let (h, p) = (h as usize, p as usize);
    if frame.len() != 48 + h + p {
        return refused(13, 0);
    }
    if room < p {
        return refused(10, 0);
    }
    let (header, rest) = frame.split_at(32 + h);
    let nonce = frame[16..32].try_into().unwrap();
    let tag = rest[p..].try_into().unwrap();
    pair.open(frame[0], nonce, header, &rest[..p], tag).ok_or((Refusal(2, 0), p))
}
