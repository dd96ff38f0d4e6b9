// A sample of the answers of the Rust that is ported, for the program crates/replay, which is proved and runs without that Rust.
// usage: vectors FILE SEED
// A vector is a head of ten bytes (the text's length, the decode buffer's bytes that are given, the report's length and the count of
// settings, two bytes each, the high one first; the number; the key), then the text, those bytes of the decode buffer, the report.
// The buffer's bytes are those over the text's length, but none for a text that is too long, which leaves it as it was.
mod corpus;
mod model;
mod readings;

use corpus::Rng;
use std::collections::BTreeMap;

/// How many vectors of each number: the sample stands for the odd and the damaged, not for what is common.
const MOST: usize = 460;
const MOST_ACCEPTED: usize = 2_400;
const LONG: usize = 260;
const MOST_LONG: usize = 3;

fn head(out: &mut Vec<u8>, numbers: [usize; 4], number: u32, key: u32) {
    for n in numbers {
        out.extend_from_slice(&(n as u16).to_be_bytes());
    }
    out.extend_from_slice(&[number as u8, key as u8]);
}

/// What a sample may miss, and so always among the vectors: each number, address and word of the tables under the keys that judge it, and the first
/// two bytes of a character at the edges of UTF-8, as they are and percent-encoded, with up to two bytes behind them.
fn edges() -> Vec<Vec<u8>> {
    let mut texts = vec![];
    let mut settings = |keys: &[&str], values: &[&str]| {
        for key in keys {
            texts.extend(values.iter().map(|value| format!("{}='{}'", key, value).into_bytes()));
        }
    };
    settings(&["port", "connect_timeout", "keepalives", "keepalives_retries"], &readings::NUMBERS);
    settings(&["hostaddr"], &readings::ADDRESSES);
    settings(&["hostaddr"], &["::00001", "::0001", "::1.2.3.0", "1:2:3:4:5:6:00.2.3.4"]);
    settings(&["sslmode", "sslnegotiation", "target_session_attrs", "channel_binding", "load_balance_hosts"], &readings::WORDS);
    for first in [0xc1, 0xc2, 0xdf, 0xe0, 0xe1, 0xed, 0xef, 0xf0, 0xf1, 0xf4, 0xf5u8] {
        for second in [0x7f, 0x80, 0x8f, 0x90, 0x9f, 0xa0, 0xbf, 0xc0u8] {
            for n in 2..=4 {
                let bytes = &[first, second, 0x80, 0xbf][..n];
                let encoded: String = bytes.iter().map(|b| format!("%{:02X}", b)).collect();
                texts.push([b"user=", bytes].concat());
                texts.push(format!("postgres:///{}", encoded).into_bytes());
            }
        }
    }
    texts
}

/// One vector, once the Rust and the plain model of document 01 agree on it.
fn put_vector(out: &mut Vec<u8>, text: &[u8]) {
    let told = original::told(text, 4097);
    let plain = model::answer(text, 4097);
    assert!((told.number, told.key, told.count, &told.decode, &told.report) == (plain.number, plain.key, plain.count, &plain.decode, &plain.report));
    let decode = told.decode.unwrap_or_default();
    head(out, [text.len(), decode.len(), told.report.len(), told.count], told.number, told.key);
    out.extend_from_slice(text);
    out.extend_from_slice(&decode);
    out.extend_from_slice(&told.report);
}

fn main() {
    let args: Vec<String> = std::env::args().collect();
    let rng = &mut Rng(args[2].parse().expect("a seed"));
    // each number's sample, chosen so that every text has the same chance; long texts apart, since they make the file large
    let mut samples: BTreeMap<(u32, bool), (usize, Vec<Vec<u8>>)> = BTreeMap::new();
    let chance = &mut Rng(rng.next());
    readings::each(false, rng, &mut |text| {
        let told = original::told(text, 4097);
        let long = text.len() > LONG;
        let most = match (told.number, long) {
            (_, true) => MOST_LONG,
            (0, false) => MOST_ACCEPTED,
            (_, false) => MOST,
        };
        // the program's buffer has 4,097 bytes
        if text.len() > 4097 {
            return;
        }
        let (seen, sample) = samples.entry((told.number, long)).or_default();
        *seen += 1;
        if sample.len() < most {
            sample.push(text.to_vec());
        } else {
            let at = chance.below(*seen);
            if at < most {
                sample[at] = text.to_vec();
            }
        }
    });
    let mut out = vec![];
    let mut n = 0;
    for ((number, long), (seen, sample)) in &samples {
        println!("number {}{}: {} of {}", number, if *long { ", long" } else { "" }, sample.len(), seen);
        for text in sample {
            put_vector(&mut out, text);
        }
        n += sample.len();
    }
    let edges = edges();
    println!("edges: {}", edges.len());
    for text in &edges {
        put_vector(&mut out, text);
    }
    n += edges.len();
    std::fs::write(&args[1], &out).unwrap();
    println!("{} vectors, {} bytes", n, out.len());
}
