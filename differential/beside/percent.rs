// Crate percent, beside the crate percent_encoding.
use crate::corpus::{any_of, damage, sequences, texts, Rng};
use crate::lent::{rooms, Lent};
use crate::probe;
use crate::tally::{Tally, Text};
use percent_encoding::percent_decode;

/// The scans, which write nothing.
fn scan(t: &mut Tally, s: &[u8]) -> Vec<u8> {
    let x: Vec<u8> = percent_decode(s).collect();
    t.same("decoded_len", &Text(s), x.len(), probe::decoded_len(s));
    t.same("first", &Text(s), x.first().copied().unwrap_or(0), probe::first(s));
    let utf8 = percent_decode(s).decode_utf8().is_ok();
    t.same("check", &Text(s), (x.len(), utf8), probe::check(s));
    x
}

fn decode(t: &mut Tally, s: &[u8], x: &[u8], len: usize, at: usize) {
    let (mut rust, mut ours) = (Lent::of(len), Lent::of(len));
    let answers = (rust.written(at, x), probe::decode(s, ours.part(), at));
    t.same("decode", &(Text(s), len, at), (answers.0, rust), (answers.1, ours));
}

/// The scans, then decoding into every kind of room.
fn all(t: &mut Tally, s: &[u8]) {
    let x = scan(t, s);
    for (len, at) in rooms(x.len()) {
        decode(t, s, &x, len, at);
    }
}

/// The scans, and decoding where there is just room.
fn brief(t: &mut Tally, s: &[u8]) {
    let x = scan(t, s);
    decode(t, s, &x, x.len() + 1, 1);
}

pub fn run(t: &mut Tally, large: bool, rng: &mut Rng) {
    // every two bytes behind a percent sign
    for a in 0..=255 {
        for b in 0..=255 {
            brief(t, &[b'%', a, b]);
            if large {
                brief(t, &[b'%', a, b'%', b, b'1']);
            }
        }
    }
    texts(b"%4aAgG9", if large { 6 } else { 4 }, &mut |s| brief(t, s));
    texts(b"%4a\xc3", if large { 5 } else { 4 }, &mut |s| all(t, s));
    // what is UTF-8 only once it is decoded, or only before
    let pieces: [&[u8]; 11] =
        [b"%", b"a", b"%41", b"%c3", b"%A9", b"\xc3", b"\xa9", b"%F0%9f%98%80", b"%ed", b"%a0", b"%80"];
    sequences(&pieces, 0, if large { 5 } else { 3 }, &mut |s| brief(t, s));
    for _ in 0..if large { 60_000 } else { 5_000 } {
        let mut s = any_of(rng, &pieces, 24);
        for _ in 0..rng.below(4) {
            damage(rng, &mut s, b"%%%048afAFgG\xc3\xa9\0");
        }
        all(t, &s);
    }
    // long ones, of any bytes
    for n in [255, 4095, 4096, 4097, 20_000] {
        for dense in [2, 4, 50] {
            let s: Vec<u8> = (0..n).map(|_| if rng.one_in(dense) { b'%' } else { b"0123456789abcdefABCDEFgx"[rng.below(24)] }).collect();
            all(t, &s);
            let s: Vec<u8> = (0..n).map(|_| if rng.one_in(dense) { b'%' } else { rng.next() as u8 }).collect();
            all(t, &s);
        }
    }
}
