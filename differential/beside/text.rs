// Crates space and utf8, beside char::is_whitespace and str::from_utf8.
use crate::corpus::{any_of, damage, sequences, Rng};
use crate::probe;
use crate::tally::{Tally, Text};
use std::str::from_utf8;

/// Every code point; and numbers that are none (a surrogate, or above 10FFFF), which are no white space.
pub fn spaces(t: &mut Tally) {
    for code in (0..=0x11_ffffu32).chain((0..32).map(|k| 1 << k)).chain([u32::MAX - 1, u32::MAX]) {
        let rust = char::from_u32(code).map_or(false, char::is_whitespace);
        t.same("is_space", &code, rust, probe::space(code));
    }
}

/// The character that a text begins with, by from_utf8: its code point and length.
fn first(s: &[u8]) -> (u32, usize) {
    let s = &s[..s.len().min(4)];
    let good = match from_utf8(s) {
        Ok(good) => good,
        Err(e) => from_utf8(&s[..e.valid_up_to()]).unwrap(),
    };
    good.chars().next().map_or((0, 0), |c| (c as u32, c.len_utf8()))
}

fn text(t: &mut Tally, s: &[u8]) {
    let rust = from_utf8(s).is_ok();
    t.same("valid", &Text(s), rust, probe::valid(s));
    t.same("valid by steps", &Text(s), rust, probe::valid_by_steps(s));
    t.same("char_at", &Text(s), first(s), probe::char_at(s, 0));
}

/// The character at every place of a text, at its end and behind it.
fn places(t: &mut Tally, s: &[u8]) {
    for at in (0..=s.len() + 1).chain([usize::MAX]) {
        let rust = s.get(at..).map_or((0, 0), first);
        t.same("char_at", &(Text(s), at), rust, probe::char_at(s, at));
    }
}

// Both sides of every bound in RFC 3629's table.
const EDGES: [u8; 28] = [
    0x00, 0x41, 0x7f, 0x80, 0x81, 0x8f, 0x90, 0x91, 0x9f, 0xa0, 0xa1, 0xbf, 0xc0, 0xc1, 0xc2, 0xc3, 0xdf, 0xe0, 0xe1, 0xec, 0xed, 0xee, 0xef,
    0xf0, 0xf3, 0xf4, 0xf5, 0xff,
];

pub fn utf8(t: &mut Tally, large: bool, rng: &mut Rng) {
    let every: Vec<u8> = (0..=255).collect();
    let every: Vec<&[u8]> = every.chunks(1).collect();
    let edges: Vec<&[u8]> = EDGES.chunks(1).collect();
    // every text of at most two bytes (three in the large run), then four bytes at the edges
    sequences(&every, 0, if large { 3 } else { 2 }, &mut |s| text(t, s));
    if !large {
        sequences(&edges, 3, 3, &mut |s| text(t, s));
    }
    sequences(&edges, 4, 4, &mut |s| {
        if large || s[0] >= 0xc0 {
            text(t, s)
        }
    });
    // every code point in its own form, whole, cut short and with a byte behind
    for code in (0..=0x10_ffff).filter_map(char::from_u32) {
        let mut room = [0x80; 5];
        let n = code.encode_utf8(&mut room).len();
        t.same("char_at", &code, (code as u32, n), probe::char_at(&room, 0));
        if large || code as u32 % 7 == 0 {
            text(t, &room[..n]);
            text(t, &room[..n - 1]);
            text(t, &room[..n + 1]);
        }
    }
    let pieces: [&[u8]; 12] = [
        b"a", b"\x7f", b"\xc2\x80", b"\xdf\xbf", b"\xe0\xa0\x80", b"\xed\x9f\xbf", b"\xee\x80\x80", b"\xef\xbf\xbf", b"\xf0\x90\x80\x80",
        b"\xf4\x8f\xbf\xbf", b"\0", b"\xe2\x80\x8a",
    ];
    for _ in 0..if large { 100_000 } else { 10_000 } {
        let mut s = any_of(rng, &pieces, 12);
        for _ in 0..rng.below(3) {
            damage(rng, &mut s, &EDGES);
        }
        text(t, &s);
        places(t, &s);
    }
}
