//! Random inputs, long and short, valid and damaged: the library's answers and buffers beside those of the second implementation.

use crate::library::{self, TOP_BIT};
use crate::random::Random;
use crate::reference::{self, Cipher, Pair, Refusal};

/// Every output begins as this byte, so that what a call leaves alone is seen.
const BEFORE: u8 = 0xee;

/// What the library answered, and whether that and all it wrote are what the second implementation says.
struct Seen {
    code: u64,
    same: bool,
}

fn refused(refusal: Refusal) -> u64 {
    TOP_BIT + 256 * refusal.1 as u64 + refusal.0 as u64
}

fn not_made(why: u64) -> u64 {
    TOP_BIT + 65536 * why
}

/// What a caller asks for: mostly what there is.
struct Asked {
    cipher: u8,
    masking: u8,
    key: Vec<u8>,
}

impl Asked {
    fn draw(random: &mut Random) -> Asked {
        let odd = |random: &mut Random| if random.below(40) == 0 { random.below(256) as u8 } else { 1 + random.below(2) as u8 };
        let len = if random.below(40) == 0 { random.below(40) } else { 16 };
        Asked { cipher: odd(random), masking: odd(random), key: random.bytes(len) }
    }

    fn key(&self) -> Option<[u8; 16]> {
        self.key.as_slice().try_into().ok()
    }

    /// The pair that was asked for, or why the call is not made.
    fn pair(&self) -> Result<Pair, u64> {
        let cipher = self.cipher()?;
        if self.masking != 1 && self.masking != 2 {
            return Err(not_made(2));
        }
        Ok(Pair { cipher, masking: self.masking })
    }

    fn cipher(&self) -> Result<Cipher, u64> {
        if self.cipher != 1 && self.cipher != 2 {
            return Err(not_made(1));
        }
        let key = self.key().ok_or(not_made(3))?;
        Ok(Cipher::of(self.cipher, key))
    }
}

/// A length: mostly short, at times long, and often next to a whole number of blocks.
fn length(random: &mut Random, longest: usize) -> usize {
    match random.below(20) {
        0 => random.below(longest + 1),
        1 => longest - random.below(3),
        2..=5 => (16 * random.below(6) + random.below(3)).saturating_sub(1),
        _ => random.below(70),
    }
}

/// Flips a bit, if there is one.
fn damage(random: &mut Random, bytes: &mut [u8]) {
    if !bytes.is_empty() {
        let at = random.below(bytes.len());
        bytes[at] ^= 1 << random.below(8);
    }
}

/// The buffer after a call that wrote these bytes at its start.
fn over(before: &[u8], start: &[u8]) -> Vec<u8> {
    let mut after = before.to_vec();
    after[..start.len()].copy_from_slice(start);
    after
}

fn blocks(random: &mut Random) -> Seen {
    let asked = Asked::draw(random);
    let len = length(random, 1100);
    let bytes = random.bytes(len);
    let forward = random.below(2) == 0;
    let (code, expected) = match asked.cipher() {
        Err(code) => (code, bytes.clone()),
        Ok(cipher) => {
            let whole = 16 * (len / 16);
            let map = |b: &[u8]| if forward { cipher.forward(b.try_into().unwrap()) } else { cipher.backward(b.try_into().unwrap()) };
            let mapped: Vec<u8> = bytes[..whole].chunks(16).flat_map(map).collect();
            (whole as u64, over(&bytes, &mapped))
        }
    };
    let mut own = bytes;
    let answer = if forward { library::encrypt_blocks(asked.cipher, &asked.key, &mut own) } else { library::decrypt_blocks(asked.cipher, &asked.key, &mut own) };
    Seen { code: answer, same: (answer, own) == (code, expected) }
}

/// What a mode is asked for beside cipher, masking and key.
struct InMode {
    mode: u8,
    nonce: Vec<u8>,
    header: Vec<u8>,
    tag_len: usize,
}

impl InMode {
    fn draw(random: &mut Random) -> InMode {
        let sixteen = |random: &mut Random| if random.below(40) == 0 { random.below(40) } else { 16 };
        let (nonce, tag_len) = (sixteen(random), sixteen(random));
        let mode = if random.below(40) == 0 { random.below(256) as u8 } else { 1 + random.below(2) as u8 };
        let header = length(random, 1100);
        InMode { mode, nonce: random.bytes(nonce), header: random.bytes(header), tag_len }
    }

    fn nonce(&self) -> Result<[u8; 16], u64> {
        let nonce = self.nonce.as_slice().try_into().map_err(|_| not_made(4))?;
        if self.tag_len != 16 {
            return Err(not_made(5));
        }
        if self.mode != 1 && self.mode != 2 {
            return Err(not_made(6));
        }
        Ok(nonce)
    }
}

fn mode_seal(random: &mut Random) -> Seen {
    let (asked, how) = (Asked::draw(random), InMode::draw(random));
    let len = length(random, 1100);
    let message = random.bytes(len);
    let room = if random.below(20) == 0 { random.below(2 * len + 2) } else { len };
    let (out, tag) = (vec![BEFORE; room], vec![BEFORE; how.tag_len]);
    let made = asked.pair().and_then(|pair| Ok((pair, how.nonce()?)));
    let expected = match made {
        Err(code) => (code, out.clone(), tag.clone()),
        Ok(_) if room != len => (refused(Refusal(1, 0)), out.clone(), tag.clone()),
        Ok((pair, nonce)) => {
            let (sealed, block) = pair.seal(how.mode, nonce, &how.header, &message);
            (len as u64, sealed, block.to_vec())
        }
    };
    let (mut own, mut own_tag) = (out, tag);
    let code = library::mode_seal(asked.cipher, asked.masking, &asked.key, how.mode, &how.nonce, &how.header, &message, &mut own, &mut own_tag);
    Seen { code, same: (code, own, own_tag) == expected }
}

fn mode_open(random: &mut Random) -> Seen {
    let (asked, how) = (Asked::draw(random), InMode::draw(random));
    let len = length(random, 1100);
    let mut sealed = random.bytes(len);
    let mut tag = random.bytes(how.tag_len);
    let mut header = how.header.clone();
    let made = asked.pair().and_then(|pair| Ok((pair, how.nonce()?)));
    // Mostly bytes that a message seals to, and of these some with one bit flipped.
    if let (Ok((pair, nonce)), true) = (&made, random.below(4) > 0) {
        let block;
        (sealed, block) = pair.seal(how.mode, *nonce, &header, &sealed);
        tag = block.to_vec();
        match random.below(8) {
            0 => damage(random, &mut sealed),
            1 => damage(random, &mut tag),
            2 => damage(random, &mut header),
            _ => {}
        }
    }
    let room = if random.below(20) == 0 { random.below(2 * len + 2) } else { len };
    let out = vec![BEFORE; room];
    let expected = match made {
        Err(code) => (code, out.clone()),
        Ok(_) if room != len => (refused(Refusal(1, 0)), out.clone()),
        Ok((pair, nonce)) => match pair.open(how.mode, nonce, &header, &sealed, tag.as_slice().try_into().unwrap()) {
            Some(message) => (len as u64, message),
            None => (refused(Refusal(2, 0)), vec![0; len]),
        },
    };
    let mut own = out;
    let code = library::mode_open(asked.cipher, asked.masking, &asked.key, how.mode, &how.nonce, &header, &sealed, &tag, &mut own);
    Seen { code, same: (code, own) == expected }
}

/// The parts of a frame.
struct Parts {
    sender: u8,
    number: u64,
    mode: u8,
    clear: Vec<u8>,
    message: Vec<u8>,
}

impl Parts {
    fn draw(random: &mut Random) -> Parts {
        let mode = if random.below(40) == 0 { random.below(256) as u8 } else { 1 + random.below(2) as u8 };
        let (clear, message) = (length(random, 1026), length(random, 1026));
        let bits = random.below(65) as u32;
        let number = random.next().checked_shr(bits).unwrap_or(0);
        Parts { sender: random.below(256) as u8, number, mode, clear: random.bytes(clear), message: random.bytes(message) }
    }

    fn whole(&self) -> usize {
        48 + self.clear.len() + self.message.len()
    }
}

fn frame_seal(random: &mut Random) -> Seen {
    let (asked, parts) = (Asked::draw(random), Parts::draw(random));
    let room = if random.below(10) == 0 { random.below(parts.whole() + 1) } else { parts.whole() + random.below(3) };
    let out = vec![BEFORE; room];
    let made = asked.pair().and_then(|pair| {
        reference::seal_frame(&pair, parts.sender, parts.number, parts.mode, &parts.clear, &parts.message, room).map_err(refused)
    });
    let expected = match made {
        Err(code) => (code, out.clone()),
        Ok(frame) => (frame.len() as u64, over(&out, &frame)),
    };
    let mut own = out;
    let code = library::seal(asked.cipher, asked.masking, &asked.key, parts.sender, parts.number, parts.mode, &parts.clear, &parts.message, &mut own);
    Seen { code, same: (code, own) == expected }
}

/// A frame as it may arrive: whole, with a bit flipped somewhere or in its head, cut short, made longer, or no frame at all.
fn arriving(random: &mut Random, pair: &Pair) -> Vec<u8> {
    let parts = Parts::draw(random);
    let sealed = reference::seal_frame(pair, parts.sender, parts.number, parts.mode, &parts.clear, &parts.message, parts.whole());
    let mut frame = match sealed {
        Ok(frame) => frame,
        Err(_) => random.bytes(parts.whole()),
    };
    match random.below(10) {
        0 => damage(random, &mut frame),
        1 => damage(random, &mut frame[..32]),
        2 => frame[random.below(12)] = random.below(256) as u8,
        3 => frame.truncate(random.below(parts.whole())),
        4 => frame.push(random.below(256) as u8),
        _ => {}
    }
    frame
}

fn frame_open(random: &mut Random) -> Seen {
    let asked = Asked::draw(random);
    let pair = asked.pair();
    let frame = match &pair {
        Ok(pair) => arriving(random, pair),
        Err(_) => random.bytes(60),
    };
    let room = if random.below(10) == 0 { random.below(80) } else { 1024 + random.below(3) };
    let out = vec![BEFORE; room];
    let expected = match pair.map(|pair| reference::open_frame(&pair, &frame, room)) {
        Err(code) => (code, out.clone()),
        Ok(Ok(message)) => (message.len() as u64, over(&out, &message)),
        Ok(Err((refusal, zeros))) => (refused(refusal), over(&out, &vec![0; zeros])),
    };
    let mut own = out;
    let code = library::open(asked.cipher, asked.masking, &asked.key, &frame, &mut own);
    Seen { code, same: (code, own) == expected }
}

/// A comparison, by its name.
const KINDS: [(&str, usize, fn(&mut Random) -> Seen); 5] = [
    ("blocks encrypted or decrypted", 20_000, blocks),
    ("sealed in a mode", 30_000, mode_seal),
    ("opened in a mode", 30_000, mode_open),
    ("frames sealed", 20_000, frame_seal),
    ("frames opened", 30_000, frame_open),
];

/// Makes every comparison, prints how many there were and how many differ, and answers whether none does.
pub fn all(seed: u64) -> bool {
    let mut random = Random::from(seed);
    let (mut inputs, mut differing) = (0, 0);
    for (name, count, draw) in KINDS {
        let seen: Vec<Seen> = (0..count).map(|_| draw(&mut random)).collect();
        let of = |test: fn(&Seen) -> bool| seen.iter().filter(|s| test(s)).count();
        let accepted = of(|s| s.code < TOP_BIT);
        let unmade = of(|s| s.code >= TOP_BIT + 65536);
        let wrong = of(|s| !s.same);
        println!("{name}: {count} inputs, {accepted} accepted, {} refused, {unmade} not made, {wrong} differing", count - accepted - unmade);
        inputs += count;
        differing += wrong;
    }
    println!("{inputs} inputs, {differing} differing");
    differing == 0
}
