//! The tables: the library beside plain Rust of the same shape, and beside OpenSSL.

use std::hint::black_box;

use crate::library;
use crate::measure::{Timed, in_turns};
use crate::openssl::{Aead, OpenSsl};
use crate::plain::{self, Aes128, Cipher, Doubling, Masking, Speck, Tower};
use crate::random::Random;

const LENGTHS: [usize; 4] = [16, 64, 256, 1024];
const HEADER: usize = 32;
const AES: u8 = 1;
const SPECK: u8 = 2;

fn row(what: &str, bytes: usize, timed: &Timed, goal: Option<f64>) {
    let goal = match goal {
        Some(goal) => format!("{goal:.2}{}", if timed.ratio() <= goal { "" } else { ", missed" }),
        None => String::from("-"),
    };
    println!("| {what} | {bytes} | {:.0} | {:.0} | {:.2} | {goal} |", timed.ours, timed.theirs, timed.ratio());
}

fn ciphers<C: Cipher>(name: &str, number: u8, random: &mut Random) {
    let key = random.bytes(16);
    let bytes = random.bytes(1024);
    let (mut a, mut b) = (bytes.clone(), bytes.clone());
    let timed = in_turns(
        || {
            library::encrypt_blocks(number, black_box(&key), black_box(&mut a));
        },
        || plain::encrypt_blocks::<C>(black_box(&key), black_box(&mut b)),
    );
    row(&format!("{name}, encrypt 64 blocks"), 1024, &timed, Some(1.05));
    let timed = in_turns(
        || {
            library::decrypt_blocks(number, black_box(&key), black_box(&mut a));
        },
        || plain::decrypt_blocks::<C>(black_box(&key), black_box(&mut b)),
    );
    row(&format!("{name}, decrypt 64 blocks"), 1024, &timed, Some(1.05));
    let timed = in_turns(
        || {
            library::encrypt_blocks(number, black_box(&key), black_box(&mut []));
        },
        || plain::encrypt_blocks::<C>(black_box(&key), black_box(&mut [])),
    );
    row(&format!("{name}, no block: the key alone"), 0, &timed, None);
}

/// What is sealed and opened.
struct Task {
    key: Vec<u8>,
    nonce: Vec<u8>,
    header: Vec<u8>,
    message: Vec<u8>,
    sealed: Vec<u8>,
    tag: Vec<u8>,
}

impl Task {
    fn of(cipher: u8, masking: u8, len: usize, random: &mut Random) -> Task {
        let [key, nonce, header, message] = [16, 16, HEADER, len].map(|n| random.bytes(n));
        let (mut sealed, mut tag) = (vec![0; len], vec![0; 16]);
        assert_eq!(library::mode_seal(cipher, masking, &key, 1, &nonce, &header, &message, &mut sealed, &mut tag), len as u64);
        Task { key, nonce, header, message, sealed, tag }
    }

    fn seal(&self, cipher: u8, masking: u8, out: &mut [u8], tag: &mut [u8]) -> u64 {
        let t = black_box(self);
        library::mode_seal(cipher, masking, &t.key, 1, &t.nonce, &t.header, &t.message, black_box(out), tag)
    }

    fn open(&self, cipher: u8, masking: u8, out: &mut [u8]) -> u64 {
        let t = black_box(self);
        library::mode_open(cipher, masking, &t.key, 1, &t.nonce, &t.header, &t.sealed, &t.tag, black_box(out))
    }
}

fn modes<C: Cipher, M: Masking>(name: &str, cipher: u8, masking: u8, random: &mut Random) {
    for len in LENGTHS {
        let task = Task::of(cipher, masking, len, random);
        let ([mut a, mut b], [mut s, mut t]) = ([vec![0; len], vec![0; len]], [[0; 16], [0; 16]]);
        let timed = in_turns(
            || {
                task.seal(cipher, masking, &mut a, &mut s);
            },
            || {
                let k = black_box(&task);
                plain::mode_seal::<C, M>(&k.key, 1, &k.nonce, &k.header, &k.message, black_box(&mut b), &mut t);
            },
        );
        assert!(a == task.sealed && a == b && s == t, "{name}: plain Rust seals otherwise");
        row(&format!("{name}, seal"), len, &timed, Some(1.10));
        let timed = in_turns(
            || {
                task.open(cipher, masking, &mut a);
            },
            || {
                let k = black_box(&task);
                plain::mode_open::<C, M>(&k.key, 1, &k.nonce, &k.header, &k.sealed, &k.tag, black_box(&mut b));
            },
        );
        assert!(a == task.message && a == b, "{name}: plain Rust opens otherwise");
        row(&format!("{name}, open"), len, &timed, Some(1.10));
    }
}

fn heading(theirs: &str) {
    println!("| what | bytes | library, ns | {theirs}, ns | ratio | goal |");
    println!("|---|---|---|---|---|---|");
}

/// The library beside plain Rust of the same shape.
pub fn beside_rust(seed: u64) {
    let mut random = Random::from(seed);
    println!("Least time of a call, key expansion included; seal and open in mode 1 with a header of {HEADER} bytes. The ratio is the library's time over plain Rust's.\n");
    heading("plain Rust");
    ciphers::<Speck>("Speck128/128", SPECK, &mut random);
    ciphers::<Aes128>("AES-128", AES, &mut random);
    modes::<Speck, Doubling>("Speck, doubling", SPECK, 1, &mut random);
    modes::<Speck, Tower>("Speck, tower", SPECK, 2, &mut random);
    modes::<Aes128, Doubling>("AES, doubling", AES, 1, &mut random);
    modes::<Aes128, Tower>("AES, tower", AES, 2, &mut random);
}

/// The library beside OpenSSL: the same key, header and message, with the key set for every message on both sides.
pub fn beside_openssl(label: &str, seed: u64) {
    let Some(openssl) = OpenSsl::load() else {
        println!("libcrypto is not installed: no comparison with OpenSSL");
        return;
    };
    println!("OpenSSL {label}, a key, a header of {HEADER} bytes and a message sealed and the tag made; the library with doubling in mode 1.\n");
    heading("OpenSSL");
    for (name, aead) in [("aes-128-ocb", Aead::Ocb), ("aes-128-gcm", Aead::Gcm)] {
        for (ours, cipher) in [("AES", AES), ("Speck", SPECK)] {
            let mut random = Random::from(seed);
            for len in LENGTHS {
                let task = Task::of(cipher, 1, len, &mut random);
                let mut their = openssl.context(aead);
                let (mut a, mut b, mut s, mut t) = (vec![0; len], vec![0; len], [0; 16], [0; 16]);
                let timed = in_turns(
                    || {
                        task.seal(cipher, 1, &mut a, &mut s);
                    },
                    || {
                        let k = black_box(&task);
                        their.seal(&k.key, &k.nonce[..12], &k.header, &k.message, black_box(&mut b), &mut t);
                    },
                );
                row(&format!("{ours} beside {name}, seal"), len, &timed, None);
            }
        }
    }
}
