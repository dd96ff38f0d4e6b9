// Crate address, beside parse::<IpAddr>.
use crate::corpus::{any_of, damage, sequences, texts, Rng};
use crate::probe;
use crate::tally::{Tally, Text};
use std::net::{IpAddr, Ipv4Addr, Ipv6Addr};
use std::str::from_utf8;

fn address(t: &mut Tally, s: &[u8]) {
    let rust = match from_utf8(s).ok().and_then(|s| s.parse().ok()) {
        None => (0, 0, 0),
        Some(IpAddr::V4(a)) => (4, 0, u32::from(a) as u64),
        Some(IpAddr::V6(a)) => (6, (u128::from(a) >> 64) as u64, u128::from(a) as u64),
    };
    t.same("address", &Text(s), rust, probe::address(s));
}

const SLIPS: &[u8] = b"0123456789abcdefABCDEF::..%[]g- /";

fn four(rng: &mut Rng) -> String {
    let part = |rng: &mut Rng| if rng.one_in(3) { [0, 1, 9, 10, 99, 100, 199, 200, 249, 250, 254, 255][rng.below(12)] } else { rng.next() as u8 };
    Ipv4Addr::new(part(rng), part(rng), part(rng), part(rng)).to_string()
}

/// Groups as RFC 4291 writes them: some left out by `::` or none, with a tail of four decimals or none.
fn six(rng: &mut Rng) -> String {
    let tail = rng.one_in(4);
    let groups = if tail { 6 } else { 8 };
    let group = |rng: &mut Rng| {
        let g = (rng.next() as u16) >> rng.below(16);
        match rng.below(3) {
            0 => format!("{:x}", g),
            1 => format!("{:04X}", g),
            _ => format!("{:02x}", g),
        }
    };
    let mut front: Vec<String> = (0..groups).map(|_| group(rng)).collect();
    let mut back = vec![];
    let gap = !rng.one_in(3);
    if gap {
        let left_out = 1 + rng.below(groups);
        let at = rng.below(groups - left_out + 1);
        back = front.split_off(at + left_out);
        front.truncate(at);
    }
    if tail {
        back.push(four(rng));
    }
    if gap {
        format!("{}::{}", front.join(":"), back.join(":"))
    } else {
        front.extend(back);
        front.join(":")
    }
}

pub fn run(t: &mut Tally, large: bool, rng: &mut Rng) {
    texts(b"0125.", if large { 8 } else { 6 }, &mut |s| address(t, s));
    texts(b":1f.g", if large { 8 } else { 6 }, &mut |s| address(t, s));
    // every part of one to four digits, at every place of the four
    for n in 0..10_000 {
        for width in 1..=4 {
            let part = format!("{:0w$}", n, w = width);
            if large || n < 400 {
                for s in [format!("{}.2.3.4", part), format!("1.{}.3.4", part), format!("1.2.{}.4", part), format!("1.2.3.{}", part)] {
                    address(t, s.as_bytes());
                }
            }
            address(t, format!("::1.2.{}.4", part).as_bytes());
        }
    }
    // every group of one to five digits
    for n in (0..=0xf_ffff).step_by(if large { 1 } else { 257 }) {
        address(t, format!("{:x}::", n).as_bytes());
        if large || n % 3 == 0 {
            address(t, format!("1::{:05X}:2", n & 0x1_ffff).as_bytes());
            address(t, format!("1:2:3:4:5:6:7:{:04x}", n).as_bytes());
        }
    }
    let parts: [&[u8]; 7] = [b"0", b"1", b"25", b"255", b"256", b"01", b"."];
    sequences(&parts, 5, if large { 8 } else { 5 }, &mut |s| address(t, s));
    // groups and separators in any order: too few, too many, two gaps, a tail anywhere
    let groups: [&[u8]; 5] = [b"1", b":", b"::", b"ffff", b"1.2.3.4"];
    sequences(&groups, 0, if large { 9 } else { 6 }, &mut |s| address(t, s));
    let runs: [&[u8]; 6] = [b":1", b"1:", b"::", b"2:3:4", b":5:6:7:8", b":9.8.7.6"];
    sequences(&runs, 0, if large { 7 } else { 5 }, &mut |s| address(t, s));
    for b in 0..=255u8 {
        for (front, back) in [("1.2.3.", ""), ("", ".2.3.4"), ("1.2", "3.4"), ("::", ""), ("1", "::"), ("1:", ":2"), ("::1", ""), ("", "::1"), ("::1.2.3.4", "")] {
            address(t, &[front.as_bytes(), &[b], back.as_bytes()].concat());
        }
    }
    for _ in 0..if large { 400_000 } else { 30_000 } {
        let mut s = match rng.below(4) {
            0 => four(rng),
            1 => Ipv6Addr::from((rng.number() as u128) << 64 | rng.number() as u128).to_string(),
            _ => six(rng),
        }
        .into_bytes();
        address(t, &s);
        for _ in 0..1 + rng.below(2) {
            damage(rng, &mut s, SLIPS);
        }
        address(t, &s);
    }
    // long ones
    for _ in 0..2_000 {
        let s = any_of(rng, &[b"1:", b"::", b"1.", b"0", b"f", b"255."], 60);
        address(t, &s);
    }
    for n in [100, 4_096, 20_000] {
        for piece in ["0", "1", ":", ".", "1:", "1.", "::1", "f"] {
            address(t, piece.repeat(n).as_bytes());
            address(t, format!("::{}", piece.repeat(n)).as_bytes());
        }
    }
}
