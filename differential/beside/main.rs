// The leaves beside Rust's own library, the reader beside the Rust that is ported: every answer of the proved archives, with every byte
// that they were lent.
// usage: beside small|large SEED ANSWERS     the last line is 'differential: N compared, D differ'
//        beside calls small|large SEED CALLS the calls of setters that the program of crate probe_setters answers
mod address;
mod bytes;
mod corpus;
mod dock;
mod lent;
mod model;
mod names;
mod numbers;
mod percent;
mod probe;
mod readings;
mod record;
mod setters;
mod tally;
mod text;
mod texts;

use corpus::Rng;
use tally::Tally;

const USAGE: &str = "usage: beside [calls] small|large SEED FILE";

fn main() {
    let args: Vec<String> = std::env::args().skip(1).collect();
    let calls = args.first().map_or(false, |word| word == "calls");
    let args = &args[calls as usize..];
    let large = match args.first().map(String::as_str) {
        Some("small") => false,
        Some("large") => true,
        _ => panic!("{}", USAGE),
    };
    let seed = args.get(1).and_then(|s| s.parse().ok()).expect(USAGE);
    let file = args.get(2).expect(USAGE);
    if calls {
        return setters::write(large, seed, file);
    }
    let (t, rng) = (&mut Tally::new(), &mut Rng(seed));
    t.leaf("byte", |t| bytes::run(t, large, rng));
    t.leaf("space", text::spaces);
    t.leaf("utf8", |t| text::utf8(t, large, rng));
    t.leaf("percent", |t| percent::run(t, large, rng));
    t.leaf("number", |t| numbers::read(t, large, rng));
    t.leaf("decimal", |t| numbers::write(t, large, rng));
    t.leaf("address", |t| address::run(t, large, rng));
    t.leaf("names", |t| names::run(t, large, rng));
    t.leaf("settings", |t| record::run(t, large, rng));
    t.leaf("setters", |t| setters::run(t, large, seed, file));
    t.leaf("texts", |t| texts::run(t, large, rng));
    println!("differential: {} compared, {} differ", t.compared, t.differ);
    std::process::exit((t.differ != 0) as i32);
}
