// Crates number and decimal, beside parse, from_str_radix and format.
use crate::corpus::{damage, sequences, texts, Rng};
use crate::lent::{rooms, Lent};
use crate::probe::{self, Read};
use crate::tally::{Tally, Text};
use std::str::from_utf8;

/// Whether a piece has a number's form: Rust's own answer does not tell, since it stops at the digit that leaves the range.
fn form(s: &[u8], signs: &[u8], radix: u32) -> bool {
    let digits = match s.first() {
        Some(b) if signs.contains(b) => &s[1..],
        _ => s,
    };
    !digits.is_empty() && digits.iter().all(|b| char::from(*b).is_digit(radix))
}

/// Rust's answer, its refusals told apart by the form.
fn parsed<T: std::str::FromStr>(s: &[u8], signs: &[u8]) -> Read<T> {
    match from_utf8(s).ok().and_then(|s| s.parse().ok()) {
        Some(n) => Read::Is(n),
        None if form(s, signs, 10) => Read::Range,
        None => Read::Form,
    }
}

fn widen<T: Into<u64>>(r: Read<T>) -> Read<u64> {
    match r {
        Read::Is(n) => Read::Is(n.into()),
        Read::Form => Read::Form,
        Read::Range => Read::Range,
    }
}

fn piece(t: &mut Tally, s: &[u8]) {
    t.same("u16", &Text(s), widen(parsed::<u16>(s, b"+")), probe::as_u16(s));
    t.same("u32", &Text(s), widen(parsed::<u32>(s, b"+")), probe::as_u32(s));
    t.same("u64", &Text(s), parsed::<u64>(s, b"+"), probe::unsigned(s, u64::MAX));
    t.same("i64", &Text(s), parsed::<i64>(s, b"+-"), probe::signed(s));
}

/// The digits of a base 16 number, no sign; from_str_radix takes a sign, so the form is asked first.
fn hex(t: &mut Tally, s: &[u8], max: u64) {
    let rust = if !form(s, b"", 16) {
        Read::Form
    } else {
        match u64::from_str_radix(from_utf8(s).unwrap(), 16) {
            Ok(n) if n <= max => Read::Is(n),
            _ => Read::Range,
        }
    };
    t.same("hex", &(Text(s), max), rust, probe::hex(s, max));
}

// The last number within each range, and the first below zero.
const ENDS: [i128; 8] = [0, 9, u8::MAX as i128, u16::MAX as i128, u32::MAX as i128, i64::MAX as i128, u64::MAX as i128, i64::MIN as i128];

/// Each end and its neighbours, with every sign, leading zeros and a slip behind.
fn ends(t: &mut Tally, zeros: usize) {
    for end in ENDS {
        for near in -12..=12 {
            for factor in [1, 10] {
                let n: i128 = end * factor + near;
                for sign in ["", "+", "-", "++", "+-", "-+", " "] {
                    for z in 0..=zeros {
                        for behind in ["", "x", " ", "\0", "\u{661}"] {
                            piece(t, format!("{}{}{}{}", sign, "0".repeat(z), n.abs(), behind).as_bytes());
                        }
                    }
                }
            }
        }
    }
}

pub fn read(t: &mut Tally, large: bool, rng: &mut Rng) {
    texts(b"+-019x", if large { 6 } else { 5 }, &mut |s| piece(t, s));
    for b in 0..=255u8 {
        for s in [&[b][..], &[b, b'1'], &[b'1', b], &[b'+', b], &[b'-', b]] {
            piece(t, s);
            hex(t, s, u64::MAX);
        }
    }
    ends(t, if large { 24 } else { 3 });
    // around every multiple of the bound, where a product would wrap
    for k in 1..if large { 2_000u128 } else { 100 } {
        for near in [u128::MAX, 0, 1] {
            piece(t, (k << 64).wrapping_add(near).to_string().as_bytes());
            piece(t, format!("-{}", (k << 63).wrapping_add(near)).as_bytes());
        }
    }
    for n in 0..if large { 100_000u32 } else { 70_000 } {
        let s = n.to_string();
        t.same("u16", &n, widen(parsed::<u16>(s.as_bytes(), b"+")), probe::as_u16(s.as_bytes()));
    }
    for _ in 0..if large { 100_000 } else { 10_000 } {
        let n = rng.number();
        // within a bound of any size
        let max = match rng.below(3) {
            0 => n,
            1 => n.wrapping_sub(1),
            _ => rng.number(),
        };
        let s = n.to_string();
        let rust = if n <= max { Read::Is(n) } else { Read::Range };
        t.same("unsigned", &(n, max), rust, probe::unsigned(s.as_bytes(), max));
        hex(t, format!("{:x}", n).as_bytes(), max);
        hex(t, format!("{:020X}", n).as_bytes(), max);
        let sign = ["", "+", "-"][rng.below(3)];
        let tail = ["", "0", "5", "99", "123456789"][rng.below(5)];
        let mut s = format!("{}{}{}{}", sign, "0".repeat(rng.below(4)), n, tail).into_bytes();
        piece(t, &s);
        damage(rng, &mut s, b"0123456789+-xX");
        piece(t, &s);
    }
    sequences(&[b"0", b"9", b"a", b"F", b"g", b"+"], 0, if large { 5 } else { 4 }, &mut |s| {
        for max in [0, 0x9f, 0xffff, u64::MAX] {
            hex(t, s, max);
        }
    });
    // more zeros than any number has digits
    for z in [100, 4_096, 20_000] {
        for last in ["", "0", "65535", "65536", "18446744073709551615", "18446744073709551616", "x"] {
            for sign in ["", "+", "-"] {
                piece(t, format!("{}{}{}", sign, "0".repeat(z), last).as_bytes());
                piece(t, format!("{}{}{}", sign, "9".repeat(z), last).as_bytes());
            }
        }
    }
}

fn put(t: &mut Tally, what: &str, text: String, write: &dyn Fn(&mut [u8], usize) -> usize) {
    for (len, at) in rooms(text.len()) {
        let (mut rust, mut ours) = (Lent::of(len), Lent::of(len));
        let answers = (rust.written(at, text.as_bytes()), write(ours.part(), at));
        t.same(what, &(&text, len, at), (answers.0, rust), (answers.1, ours));
    }
}

/// Measured, written out and read back.
fn number(t: &mut Tally, n: u64) {
    let text = n.to_string();
    t.same("decimal_len", &n, text.len(), probe::decimal_len(n));
    t.same("read back", &n, Read::Is(n), probe::unsigned(text.as_bytes(), u64::MAX));
    put(t, "put_decimal", text, &|d, at| probe::put_decimal(n, d, at));
}

pub fn write(t: &mut Tally, large: bool, rng: &mut Rng) {
    for n in 0..if large { 20_000 } else { 1_100 } {
        number(t, n);
    }
    for k in 0..64 {
        for near in [u64::MAX, 0, 1] {
            number(t, (1u64 << k).wrapping_add(near));
            number(t, 10u64.wrapping_pow(k).wrapping_add(near));
        }
    }
    for _ in 0..if large { 50_000 } else { 2_000 } {
        number(t, rng.number());
    }
    for b in 0..=u8::MAX {
        put(t, "put_hex2_upper", format!("{:02X}", b), &|d, at| probe::put_hex2_upper(b, d, at));
    }
    for g in (0..=u16::MAX).step_by(if large { 1 } else { 17 }) {
        put(t, "put_hex4_lower", format!("{:04x}", g), &|d, at| probe::put_hex4_lower(g, d, at));
    }
}
