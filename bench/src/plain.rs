//! The library's own algorithms in plain Rust of the same shape, to measure it against: the same steps, the same tables, the same loops.

type Block = u128;

// Blocks.

fn load_whole(bytes: &[u8], at: usize) -> Block {
    let mut block = [0; 16];
    block.copy_from_slice(&bytes[at..at + 16]);
    u128::from_be_bytes(block)
}

fn load(bytes: &[u8], at: usize) -> Block {
    let room = bytes.len().saturating_sub(at);
    if room >= 16 {
        return load_whole(bytes, at);
    }
    let mut block = [0; 16];
    if room > 0 {
        block[16 - room..].copy_from_slice(&bytes[at..]);
    }
    load_whole(&block, 0)
}

fn store(bytes: &mut [u8], at: usize, block: Block) {
    let written = block.to_be_bytes();
    let room = bytes.len().saturating_sub(at);
    if room >= 16 {
        bytes[at..at + 16].copy_from_slice(&written);
    } else if room > 0 {
        bytes[at..].copy_from_slice(&written[0..room]);
    }
}

#[derive(Clone, Copy)]
struct Cut {
    before: usize,
    at: usize,
    bits: usize,
}

impl Cut {
    fn of(len: usize) -> Cut {
        let before = len.saturating_sub(1) / 16;
        let at = 16 * before;
        Cut { before, at, bits: 8 * (len - at) }
    }
}

fn fill(byte: u8, piece: &[u8]) -> Block {
    let n = piece.len().min(16);
    let mut block = [0; 16];
    block[0..n].copy_from_slice(&piece[0..n]);
    if n < 16 {
        block[n] = byte;
    }
    load_whole(&block, 0)
}

// Ciphers.

pub trait Cipher {
    fn new(key: [u8; 16]) -> Self;
    fn encrypt(&self, block: Block) -> Block;
    fn decrypt(&self, block: Block) -> Block;
}

const ROUNDS: usize = 32;

#[derive(Clone, Copy)]
struct Words {
    left: u64,
    right: u64,
}

impl Words {
    fn of(block: Block) -> Words {
        Words { left: (block >> 64) as u64, right: block as u64 }
    }

    fn block(self) -> Block {
        (u128::from(self.left) << 64) + u128::from(self.right)
    }

    fn round(self, key: u64) -> Words {
        let left = self.left.rotate_right(8).wrapping_add(self.right) ^ key;
        let right = self.right.rotate_left(3) ^ left;
        Words { left, right }
    }

    fn round_back(self, key: u64) -> Words {
        let right = (self.right ^ self.left).rotate_right(3);
        let left = (self.left ^ key).wrapping_sub(right).rotate_left(8);
        Words { left, right }
    }
}

pub struct Speck {
    keys: [u64; ROUNDS],
}

impl Cipher for Speck {
    fn new(key: [u8; 16]) -> Speck {
        let mut words = Words::of(load(&key, 0));
        let mut keys = [words.right; ROUNDS];
        for i in 0..ROUNDS - 1 {
            words = words.round(i as u64);
            keys[i + 1] = words.right;
        }
        Speck { keys }
    }

    fn encrypt(&self, block: Block) -> Block {
        let mut words = Words::of(block);
        for i in 0..ROUNDS {
            words = words.round(self.keys[i]);
        }
        words.block()
    }

    fn decrypt(&self, block: Block) -> Block {
        let mut words = Words::of(block);
        for i in (0..ROUNDS).rev() {
            words = words.round_back(self.keys[i]);
        }
        words.block()
    }
}

type State = [[u8; 4]; 4];

/// What stands for each byte.
static SUBSTITUTES: [u8; 256] = [
    0x63, 0x7c, 0x77, 0x7b, 0xf2, 0x6b, 0x6f, 0xc5, 0x30, 0x01, 0x67, 0x2b, 0xfe, 0xd7, 0xab, 0x76,
    0xca, 0x82, 0xc9, 0x7d, 0xfa, 0x59, 0x47, 0xf0, 0xad, 0xd4, 0xa2, 0xaf, 0x9c, 0xa4, 0x72, 0xc0,
    0xb7, 0xfd, 0x93, 0x26, 0x36, 0x3f, 0xf7, 0xcc, 0x34, 0xa5, 0xe5, 0xf1, 0x71, 0xd8, 0x31, 0x15,
    0x04, 0xc7, 0x23, 0xc3, 0x18, 0x96, 0x05, 0x9a, 0x07, 0x12, 0x80, 0xe2, 0xeb, 0x27, 0xb2, 0x75,
    0x09, 0x83, 0x2c, 0x1a, 0x1b, 0x6e, 0x5a, 0xa0, 0x52, 0x3b, 0xd6, 0xb3, 0x29, 0xe3, 0x2f, 0x84,
    0x53, 0xd1, 0x00, 0xed, 0x20, 0xfc, 0xb1, 0x5b, 0x6a, 0xcb, 0xbe, 0x39, 0x4a, 0x4c, 0x58, 0xcf,
    0xd0, 0xef, 0xaa, 0xfb, 0x43, 0x4d, 0x33, 0x85, 0x45, 0xf9, 0x02, 0x7f, 0x50, 0x3c, 0x9f, 0xa8,
    0x51, 0xa3, 0x40, 0x8f, 0x92, 0x9d, 0x38, 0xf5, 0xbc, 0xb6, 0xda, 0x21, 0x10, 0xff, 0xf3, 0xd2,
    0xcd, 0x0c, 0x13, 0xec, 0x5f, 0x97, 0x44, 0x17, 0xc4, 0xa7, 0x7e, 0x3d, 0x64, 0x5d, 0x19, 0x73,
    0x60, 0x81, 0x4f, 0xdc, 0x22, 0x2a, 0x90, 0x88, 0x46, 0xee, 0xb8, 0x14, 0xde, 0x5e, 0x0b, 0xdb,
    0xe0, 0x32, 0x3a, 0x0a, 0x49, 0x06, 0x24, 0x5c, 0xc2, 0xd3, 0xac, 0x62, 0x91, 0x95, 0xe4, 0x79,
    0xe7, 0xc8, 0x37, 0x6d, 0x8d, 0xd5, 0x4e, 0xa9, 0x6c, 0x56, 0xf4, 0xea, 0x65, 0x7a, 0xae, 0x08,
    0xba, 0x78, 0x25, 0x2e, 0x1c, 0xa6, 0xb4, 0xc6, 0xe8, 0xdd, 0x74, 0x1f, 0x4b, 0xbd, 0x8b, 0x8a,
    0x70, 0x3e, 0xb5, 0x66, 0x48, 0x03, 0xf6, 0x0e, 0x61, 0x35, 0x57, 0xb9, 0x86, 0xc1, 0x1d, 0x9e,
    0xe1, 0xf8, 0x98, 0x11, 0x69, 0xd9, 0x8e, 0x94, 0x9b, 0x1e, 0x87, 0xe9, 0xce, 0x55, 0x28, 0xdf,
    0x8c, 0xa1, 0x89, 0x0d, 0xbf, 0xe6, 0x42, 0x68, 0x41, 0x99, 0x2d, 0x0f, 0xb0, 0x54, 0xbb, 0x16,
];

/// What each byte stands for.
static ORIGINALS: [u8; 256] = [
    0x52, 0x09, 0x6a, 0xd5, 0x30, 0x36, 0xa5, 0x38, 0xbf, 0x40, 0xa3, 0x9e, 0x81, 0xf3, 0xd7, 0xfb,
    0x7c, 0xe3, 0x39, 0x82, 0x9b, 0x2f, 0xff, 0x87, 0x34, 0x8e, 0x43, 0x44, 0xc4, 0xde, 0xe9, 0xcb,
    0x54, 0x7b, 0x94, 0x32, 0xa6, 0xc2, 0x23, 0x3d, 0xee, 0x4c, 0x95, 0x0b, 0x42, 0xfa, 0xc3, 0x4e,
    0x08, 0x2e, 0xa1, 0x66, 0x28, 0xd9, 0x24, 0xb2, 0x76, 0x5b, 0xa2, 0x49, 0x6d, 0x8b, 0xd1, 0x25,
    0x72, 0xf8, 0xf6, 0x64, 0x86, 0x68, 0x98, 0x16, 0xd4, 0xa4, 0x5c, 0xcc, 0x5d, 0x65, 0xb6, 0x92,
    0x6c, 0x70, 0x48, 0x50, 0xfd, 0xed, 0xb9, 0xda, 0x5e, 0x15, 0x46, 0x57, 0xa7, 0x8d, 0x9d, 0x84,
    0x90, 0xd8, 0xab, 0x00, 0x8c, 0xbc, 0xd3, 0x0a, 0xf7, 0xe4, 0x58, 0x05, 0xb8, 0xb3, 0x45, 0x06,
    0xd0, 0x2c, 0x1e, 0x8f, 0xca, 0x3f, 0x0f, 0x02, 0xc1, 0xaf, 0xbd, 0x03, 0x01, 0x13, 0x8a, 0x6b,
    0x3a, 0x91, 0x11, 0x41, 0x4f, 0x67, 0xdc, 0xea, 0x97, 0xf2, 0xcf, 0xce, 0xf0, 0xb4, 0xe6, 0x73,
    0x96, 0xac, 0x74, 0x22, 0xe7, 0xad, 0x35, 0x85, 0xe2, 0xf9, 0x37, 0xe8, 0x1c, 0x75, 0xdf, 0x6e,
    0x47, 0xf1, 0x1a, 0x71, 0x1d, 0x29, 0xc5, 0x89, 0x6f, 0xb7, 0x62, 0x0e, 0xaa, 0x18, 0xbe, 0x1b,
    0xfc, 0x56, 0x3e, 0x4b, 0xc6, 0xd2, 0x79, 0x20, 0x9a, 0xdb, 0xc0, 0xfe, 0x78, 0xcd, 0x5a, 0xf4,
    0x1f, 0xdd, 0xa8, 0x33, 0x88, 0x07, 0xc7, 0x31, 0xb1, 0x12, 0x10, 0x59, 0x27, 0x80, 0xec, 0x5f,
    0x60, 0x51, 0x7f, 0xa9, 0x19, 0xb5, 0x4a, 0x0d, 0x2d, 0xe5, 0x7a, 0x9f, 0x93, 0xc9, 0x9c, 0xef,
    0xa0, 0xe0, 0x3b, 0x4d, 0xae, 0x2a, 0xf5, 0xb0, 0xc8, 0xeb, 0xbb, 0x3c, 0x83, 0x53, 0x99, 0x61,
    0x17, 0x2b, 0x04, 0x7e, 0xba, 0x77, 0xd6, 0x26, 0xe1, 0x69, 0x14, 0x63, 0x55, 0x21, 0x0c, 0x7d,
];

fn times_x(a: u8) -> u8 {
    (a << 1) ^ (0x1b * (a >> 7))
}

fn mix_byte(a: u8, b: u8, c: u8, d: u8) -> u8 {
    times_x(a ^ b) ^ (b ^ (c ^ d))
}

fn unmix_byte(a: u8, b: u8, c: u8, d: u8) -> u8 {
    let eight = times_x((a ^ b) ^ (c ^ d));
    let four = times_x(eight ^ (a ^ c));
    times_x(four ^ (a ^ b)) ^ (b ^ (c ^ d))
}

fn rows_of(b: [u8; 16]) -> State {
    [[b[0], b[4], b[8], b[12]], [b[1], b[5], b[9], b[13]], [b[2], b[6], b[10], b[14]], [b[3], b[7], b[11], b[15]]]
}

fn block_of(s: State) -> Block {
    let [p, q, u, v] = s;
    u128::from_be_bytes([p[0], q[0], u[0], v[0], p[1], q[1], u[1], v[1], p[2], q[2], u[2], v[2], p[3], q[3], u[3], v[3]])
}

fn substitute(b: u8) -> u8 {
    SUBSTITUTES[b as usize]
}

fn restore(b: u8) -> u8 {
    ORIGINALS[b as usize]
}

fn sub_row(w: [u8; 4]) -> [u8; 4] {
    [substitute(w[0]), substitute(w[1]), substitute(w[2]), substitute(w[3])]
}

fn sub_bytes(s: State) -> State {
    [sub_row(s[0]), sub_row(s[1]), sub_row(s[2]), sub_row(s[3])]
}

fn inv_sub_row(w: [u8; 4]) -> [u8; 4] {
    [restore(w[0]), restore(w[1]), restore(w[2]), restore(w[3])]
}

fn inv_sub_bytes(s: State) -> State {
    [inv_sub_row(s[0]), inv_sub_row(s[1]), inv_sub_row(s[2]), inv_sub_row(s[3])]
}

fn shift_rows(s: State) -> State {
    [
        [s[0][0], s[0][1], s[0][2], s[0][3]],
        [s[1][1], s[1][2], s[1][3], s[1][0]],
        [s[2][2], s[2][3], s[2][0], s[2][1]],
        [s[3][3], s[3][0], s[3][1], s[3][2]],
    ]
}

fn inv_shift_rows(s: State) -> State {
    [
        [s[0][0], s[0][1], s[0][2], s[0][3]],
        [s[1][3], s[1][0], s[1][1], s[1][2]],
        [s[2][2], s[2][3], s[2][0], s[2][1]],
        [s[3][1], s[3][2], s[3][3], s[3][0]],
    ]
}

fn mix_row(a: [u8; 4], b: [u8; 4], c: [u8; 4], d: [u8; 4]) -> [u8; 4] {
    [mix_byte(a[0], b[0], c[0], d[0]), mix_byte(a[1], b[1], c[1], d[1]), mix_byte(a[2], b[2], c[2], d[2]), mix_byte(a[3], b[3], c[3], d[3])]
}

fn mix_columns(s: State) -> State {
    let [a, b, c, d] = s;
    [mix_row(a, b, c, d), mix_row(b, c, d, a), mix_row(c, d, a, b), mix_row(d, a, b, c)]
}

fn inv_mix_row(a: [u8; 4], b: [u8; 4], c: [u8; 4], d: [u8; 4]) -> [u8; 4] {
    [unmix_byte(a[0], b[0], c[0], d[0]), unmix_byte(a[1], b[1], c[1], d[1]), unmix_byte(a[2], b[2], c[2], d[2]), unmix_byte(a[3], b[3], c[3], d[3])]
}

fn inv_mix_columns(s: State) -> State {
    let [a, b, c, d] = s;
    [inv_mix_row(a, b, c, d), inv_mix_row(b, c, d, a), inv_mix_row(c, d, a, b), inv_mix_row(d, a, b, c)]
}

fn add_row(a: [u8; 4], k: [u8; 4]) -> [u8; 4] {
    [a[0] ^ k[0], a[1] ^ k[1], a[2] ^ k[2], a[3] ^ k[3]]
}

fn add_round_key(s: State, k: State) -> State {
    [add_row(s[0], k[0]), add_row(s[1], k[1]), add_row(s[2], k[2]), add_row(s[3], k[3])]
}

fn next_row(w: [u8; 4], t: u8) -> [u8; 4] {
    let p = w[0] ^ t;
    let q = w[1] ^ p;
    let u = w[2] ^ q;
    [p, q, u, w[3] ^ u]
}

fn next_key(s: State, constant: u8) -> State {
    [
        next_row(s[0], substitute(s[1][3]) ^ constant),
        next_row(s[1], substitute(s[2][3])),
        next_row(s[2], substitute(s[3][3])),
        next_row(s[3], substitute(s[0][3])),
    ]
}

#[derive(Clone, Copy)]
struct Round {
    cells: State,
}

pub struct Aes128 {
    keys: [Round; 11],
}

impl Aes128 {
    fn round_key(&self, n: usize) -> State {
        self.keys[n].cells
    }

    fn round(&self, i: usize, s: State) -> State {
        let t = shift_rows(sub_bytes(s));
        let t = if i < 9 { mix_columns(t) } else { t };
        add_round_key(t, self.round_key(i + 1))
    }

    fn inv_round(&self, i: usize, s: State) -> State {
        let t = add_round_key(inv_sub_bytes(inv_shift_rows(s)), self.round_key(i));
        if i > 0 { inv_mix_columns(t) } else { t }
    }

    fn enciphered(&self, start: State) -> State {
        let mut s = add_round_key(start, self.round_key(0));
        for i in 0..10 {
            s = self.round(i, s);
        }
        s
    }

    fn deciphered(&self, end: State) -> State {
        let mut s = add_round_key(end, self.round_key(10));
        for i in (0..10).rev() {
            s = self.inv_round(i, s);
        }
        s
    }
}

impl Cipher for Aes128 {
    fn new(key: [u8; 16]) -> Aes128 {
        let mut keys = [Round { cells: rows_of(key) }; 11];
        let mut constant = 1;
        for i in 0..10 {
            keys[i + 1] = Round { cells: next_key(keys[i].cells, constant) };
            constant = times_x(constant);
        }
        Aes128 { keys }
    }

    fn encrypt(&self, block: Block) -> Block {
        block_of(self.enciphered(rows_of(block.to_be_bytes())))
    }

    fn decrypt(&self, block: Block) -> Block {
        block_of(self.deciphered(rows_of(block.to_be_bytes())))
    }
}

/// Every whole block in place, under a key that is expanded first.
#[inline(never)]
pub fn encrypt_blocks<C: Cipher>(key: &[u8], bytes: &mut [u8]) {
    let cipher = C::new(key.try_into().unwrap());
    for i in 0..bytes.len() / 16 {
        let block = load(bytes, 16 * i);
        store(bytes, 16 * i, cipher.encrypt(block));
    }
}

#[inline(never)]
pub fn decrypt_blocks<C: Cipher>(key: &[u8], bytes: &mut [u8]) {
    let cipher = C::new(key.try_into().unwrap());
    for i in 0..bytes.len() / 16 {
        let block = load(bytes, 16 * i);
        store(bytes, 16 * i, cipher.decrypt(block));
    }
}

// Maskings.

pub trait Masking {
    const NEW: Self;
    fn step(&self, block: Block) -> Block;
    fn back(&self, block: Block) -> Block;
}

pub struct Doubling;

impl Masking for Doubling {
    const NEW: Doubling = Doubling;

    fn step(&self, block: Block) -> Block {
        (block << 1) ^ (0x87 * (block >> 127))
    }

    fn back(&self, block: Block) -> Block {
        let low = block % 2;
        ((block ^ (0x87 * low)) >> 1) + (low << 127)
    }
}

pub struct Tower;

fn words(block: Block) -> [u32; 4] {
    [(block >> 96) as u32, (block >> 64) as u32, (block >> 32) as u32, block as u32]
}

fn from_words(a: u32, b: u32, c: u32, d: u32) -> Block {
    u128::from(a) << 96 | u128::from(b) << 64 | u128::from(c) << 32 | u128::from(d)
}

impl Masking for Tower {
    const NEW: Tower = Tower;

    fn step(&self, block: Block) -> Block {
        let [a3, a2, a1, a0] = words(block);
        from_words(a2 ^ a3, a1, a0 ^ a3, (a3 << 1) ^ (0x0a00_0021 * (a3 >> 31)))
    }

    fn back(&self, block: Block) -> Block {
        let [b3, b2, b1, b0] = words(block);
        let low = b0 % 2;
        let a3 = ((b0 ^ (0x0a00_0021 * low)) >> 1) + (low << 31);
        from_words(a3, b3 ^ a3, b2, b1 ^ a3)
    }
}

// The modes.

#[derive(Clone, Copy)]
enum Mode {
    Forward,
    Dual,
}

impl Mode {
    fn of(value: u8) -> Option<Mode> {
        match value {
            1 => Some(Mode::Forward),
            2 => Some(Mode::Dual),
            _ => None,
        }
    }

    fn other(self) -> Mode {
        match self {
            Mode::Forward => Mode::Dual,
            Mode::Dual => Mode::Forward,
        }
    }
}

struct Pair<C, M> {
    cipher: C,
    masking: M,
}

struct Body {
    read: Block,
    written: Block,
    mask: Block,
    pad: Block,
}

fn xor_piece(piece: &[u8], pad: Block, out: &mut [u8]) {
    let bytes = pad.to_be_bytes();
    for i in 0..piece.len() {
        out[i] = piece[i] ^ bytes[i];
    }
}

impl<C: Cipher, M: Masking> Pair<C, M> {
    fn of(key: &[u8]) -> Pair<C, M> {
        Pair { cipher: C::new(key.try_into().unwrap()), masking: M::NEW }
    }

    fn sealing(&self, mode: Mode, block: Block) -> Block {
        match mode {
            Mode::Forward => self.cipher.encrypt(block),
            Mode::Dual => self.cipher.decrypt(block),
        }
    }

    fn cipher_blocks(&self, mode: Mode, gamma: Block, input: &[u8], out: &mut [u8]) -> (Block, Block, Block) {
        let n = Cut::of(input.len()).before;
        let mut mask = gamma;
        let mut read = 0;
        let mut written = 0;
        for i in 0..n {
            mask = self.masking.step(mask);
            let x = load(input, 16 * i);
            let y = self.sealing(mode, x ^ mask) ^ mask;
            store(out, 16 * i, y);
            read ^= x;
            written ^= y;
        }
        (read, written, mask)
    }

    fn cipher_body(&self, mode: Mode, delta_one: Block, nonce: Block, input: &[u8], out: &mut [u8]) -> Body {
        let gamma = self.cipher.encrypt(nonce ^ delta_one);
        let (read, written, last) = self.cipher_blocks(mode, gamma, input, out);
        let cut = Cut::of(input.len());
        let mask = self.masking.step(last);
        let pad = self.cipher.encrypt(cut.bits as Block ^ mask);
        xor_piece(&input[cut.at..], pad, &mut out[cut.at..]);
        Body { read, written, mask, pad }
    }

    fn tag_from(&self, delta_one: Block, body: &Body, sum: Block, piece: &[u8]) -> Block {
        self.cipher.encrypt(sum ^ fill(0, piece) ^ self.masking.step(body.mask) ^ delta_one ^ body.pad)
    }

    fn closing(&self, n: usize, full: bool, kappa: Block, mask: Block) -> Block {
        if n == 0 {
            let once = self.masking.back(kappa);
            if full { self.masking.back(once) } else { once }
        } else if full {
            0
        } else {
            self.masking.step(mask)
        }
    }

    fn header_tag_from(&self, delta_zero: Block, header: &[u8]) -> Block {
        if header.is_empty() {
            return 0;
        }
        let kappa = self.cipher.encrypt(delta_zero);
        let n = Cut::of(header.len()).before;
        let mut mask = kappa;
        let mut sum = 0;
        for i in 0..n {
            mask = self.masking.step(mask);
            let x = load(header, 16 * i);
            sum ^= self.cipher.encrypt(x ^ mask);
        }
        let piece = &header[16 * n..];
        let block = fill(0x80, piece);
        let closing = self.closing(n, piece.len() == 16, kappa, mask);
        self.cipher.encrypt(sum ^ block ^ closing)
    }

    fn seal(&self, mode: Mode, nonce: Block, header: &[u8], message: &[u8], out: &mut [u8]) -> Option<Block> {
        if out.len() != message.len() {
            return None;
        }
        let delta_zero = self.cipher.encrypt(1);
        let delta_one = self.masking.step(delta_zero);
        let body = self.cipher_body(mode, delta_one, nonce, message, out);
        let at = Cut::of(message.len()).at;
        let tag = self.tag_from(delta_one, &body, body.read, &out[at..]);
        Some(tag ^ self.header_tag_from(delta_zero, header))
    }

    fn open(&self, mode: Mode, nonce: Block, header: &[u8], sealed: &[u8], tag: Block, out: &mut [u8]) -> bool {
        if out.len() != sealed.len() {
            return false;
        }
        let delta_zero = self.cipher.encrypt(1);
        let delta_one = self.masking.step(delta_zero);
        let body = self.cipher_body(mode.other(), delta_one, nonce, sealed, out);
        let at = Cut::of(sealed.len()).at;
        let own = self.tag_from(delta_one, &body, body.written, &sealed[at..]);
        if own ^ self.header_tag_from(delta_zero, header) == tag {
            return true;
        }
        out.fill(0);
        false
    }
}

/// Seals under a key that is expanded first, as the library's call does, and writes the tag.
#[inline(never)]
pub fn mode_seal<C: Cipher, M: Masking>(key: &[u8], mode: u8, nonce: &[u8], header: &[u8], message: &[u8], out: &mut [u8], tag: &mut [u8]) -> bool {
    let Some(mode) = Mode::of(mode) else {
        return false;
    };
    match Pair::<C, M>::of(key).seal(mode, load(nonce, 0), header, message, out) {
        Some(block) => {
            store(tag, 0, block);
            true
        }
        None => false,
    }
}

#[inline(never)]
pub fn mode_open<C: Cipher, M: Masking>(key: &[u8], mode: u8, nonce: &[u8], header: &[u8], sealed: &[u8], tag: &[u8], out: &mut [u8]) -> bool {
    let Some(mode) = Mode::of(mode) else {
        return false;
    };
    Pair::<C, M>::of(key).open(mode, load(nonce, 0), header, sealed, load(tag, 0), out)
}
