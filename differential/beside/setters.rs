// The setters, by value and in place, called by the proved program of crate probe_setters, beside those of the Rust's `Config`.
// The sequences are written to a file, which the program answers; then they are made again, and its answers are compared.
use crate::corpus::Rng;
use crate::model::{self, Call};
use crate::tally::Tally;

const KEYS: [u8; 13] = [6, 7, 9, 10, 11, 12, 13, 14, 15, 16, 17, 18, 19];

/// What is added to the key of a call that changes the record in place.
const IN_PLACE: u8 = 100;

const NUMBERS: [u64; 12] = [0, 1, 2, 5432, 65_535, 65_536, 1 << 31, (1 << 32) - 1, 1 << 32, 1 << 63, u64::MAX - 1, u64::MAX];

/// A call, and whether it is made in place.
type Made = (bool, Call);

fn number(rng: &mut Rng) -> u64 {
    if rng.one_in(2) {
        NUMBERS[rng.below(NUMBERS.len())]
    } else {
        rng.number()
    }
}

fn made(rng: &mut Rng, key: u8) -> Made {
    let word = match key {
        6 | 17 | 18 => rng.below(3) as u8,
        9 => [4, 6][rng.below(2)],
        _ => rng.below(2) as u8,
    };
    let in_place = matches!(key, 10 | 11 | 12 | 14 | 15) && rng.one_in(2);
    (in_place, (key, word, number(rng), number(rng)))
}

/// A few calls of any setters, or as many as pass the limit of a list.
fn sequence(rng: &mut Rng) -> Vec<Made> {
    let long = rng.one_in(4);
    let n = if long { 17 + rng.below(47) } else { rng.below(12) };
    let list = [9, 10][rng.below(2)];
    (0..n)
        .map(|_| {
            let key = if long && !rng.one_in(3) { list } else { KEYS[rng.below(KEYS.len())] };
            made(rng, key)
        })
        .collect()
}

fn sequences(large: bool, seed: u64, f: &mut dyn FnMut(&[Made])) {
    let rng = &mut Rng(seed);
    for key in KEYS {
        for word in 0..3 {
            for number in NUMBERS {
                let word = if key == 9 { 4 + word % 2 * 2 } else { word % if matches!(key, 6 | 17 | 18) { 3 } else { 2 } };
                f(&[(false, (key, word, number, number))]);
                if matches!(key, 10 | 11 | 12 | 14 | 15) {
                    f(&[(true, (key, word, number, number))]);
                }
            }
        }
    }
    for _ in 0..if large { 250_000 } else { 5_000 } {
        f(&sequence(rng));
    }
}

/// The sequences as the program reads them.
pub fn write(large: bool, seed: u64, file: &str) {
    let mut out = vec![];
    sequences(large, seed, &mut |calls| {
        out.push(calls.len() as u8);
        for (in_place, (key, word, high, low)) in calls {
            out.push(if *in_place { key + IN_PLACE } else { *key });
            out.push(*word);
            out.extend_from_slice(&high.to_be_bytes());
            out.extend_from_slice(&low.to_be_bytes());
        }
    });
    std::fs::write(file, out).expect("the calls can be written");
}

/// What the Rust's setters make of the calls, which the plain writing of 01 must make of them too; that alone where the Rust is not at hand.
fn wanted(t: &mut Tally, calls: &[Call]) -> (Vec<u8>, Vec<u8>) {
    let plain = model::set(calls);
    #[cfg(original)]
    t.agree("01 in plain Rust, of setters", &calls, &original::set(calls), &plain);
    let _ = t;
    plain
}

pub fn run(t: &mut Tally, large: bool, seed: u64, file: &str) {
    let answers = std::fs::read(file).expect("the program's answers");
    let mut rest = &answers[..];
    let mut take = |n: usize| {
        let (front, back) = rest.split_at(n.min(rest.len()));
        rest = back;
        front.to_vec()
    };
    let (mut made, mut refused) = (0, 0);
    sequences(large, seed, &mut |calls| {
        let plain: Vec<Call> = calls.iter().map(|(_, call)| *call).collect();
        let rust = wanted(t, &plain);
        made += calls.len();
        refused += rust.0.iter().filter(|n| **n != 0).count();
        let numbers = take(calls.len());
        let len = take(2).iter().fold(0, |n, b| n * 256 + *b as usize);
        t.same("setters", &calls, rust, (numbers, take(len)));
    });
    t.same("setters, answers left over", &file, 0, take(usize::MAX).len());
    println!("  {} calls, {} of them refused", made, refused);
}
