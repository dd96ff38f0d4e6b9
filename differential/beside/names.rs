// Crate names, beside 01's list of keys and words, and beside what the Rust that is ported takes for a key or a word.
use crate::corpus::{damage, sequences, Rng};
use crate::lent::{rooms, Lent};
use crate::probe;
use crate::tally::{Tally, Text};

const KEYS: [(&str, &[&str]); 19] = [
    ("user", &[]),
    ("password", &[]),
    ("dbname", &[]),
    ("options", &[]),
    ("application_name", &[]),
    ("sslmode", &["disable", "prefer", "require"]),
    ("sslnegotiation", &["postgres", "direct"]),
    ("host", &[]),
    ("hostaddr", &[]),
    ("port", &[]),
    ("connect_timeout", &[]),
    ("tcp_user_timeout", &[]),
    ("keepalives", &[]),
    ("keepalives_idle", &[]),
    ("keepalives_interval", &[]),
    ("keepalives_retries", &[]),
    ("target_session_attrs", &["any", "read-write", "read-only"]),
    ("channel_binding", &["disable", "prefer", "require"]),
    ("load_balance_hosts", &["disable", "random"]),
];

const PREFIXES: [&str; 2] = ["postgres://", "postgresql://"];

/// The place of a name in a list, counted from 1, or 0.
fn place<'a>(list: impl IntoIterator<Item = &'a str>, s: &[u8]) -> usize {
    list.into_iter().position(|name| name.as_bytes() == s).map_or(0, |i| i + 1)
}

fn words(key: usize) -> &'static [&'static str] {
    key.checked_sub(1).and_then(|k| KEYS.get(k)).map_or(&[], |k| k.1)
}

fn looked_up(t: &mut Tally, s: &[u8]) {
    t.same("key_number", &Text(s), place(KEYS.iter().map(|k| k.0), s), probe::key_number(s));
    for key in (0..=21).chain([usize::MAX]) {
        t.same("word_number", &(key, Text(s)), place(words(key).iter().copied(), s), probe::word_number(key, s));
    }
    let prefix = PREFIXES.iter().find(|p| s.starts_with(p.as_bytes())).map_or(0, |p| p.len());
    t.same("prefix_len", &Text(s), prefix, probe::prefix_len(s));
    known(t, s);
}

/// Whether the Rust knows the key, and takes the word. Only texts that stand as one key and one value are asked.
#[cfg(original)]
fn known(t: &mut Tally, s: &[u8]) {
    if s.is_empty() || !s.iter().all(|b| b.is_ascii_lowercase() || b"_-/:".contains(b)) || probe::prefix_len(s) != 0 {
        return;
    }
    let s = std::str::from_utf8(s).unwrap();
    t.same("a known key", &s, original::knows(s), probe::key_number(s.as_bytes()) != 0);
    for (k, (name, _)) in KEYS.iter().enumerate().filter(|k| !k.1 .1.is_empty()) {
        t.same("a known word", &(name, s), original::accepts(&format!("{}={}", name, s)), probe::word_number(k + 1, s.as_bytes()) != 0);
    }
}

#[cfg(not(original))]
fn known(_: &mut Tally, _: &[u8]) {}

fn put(t: &mut Tally, what: &str, name: &str, write: &dyn Fn(&mut [u8], usize) -> usize) {
    for (len, at) in rooms(name.len()) {
        let (mut rust, mut ours) = (Lent::of(len), Lent::of(len));
        let answers = (rust.written(at, name.as_bytes()), write(ours.part(), at));
        t.same(what, &(name, len, at), (answers.0, rust), (answers.1, ours));
    }
}

pub fn run(t: &mut Tally, large: bool, rng: &mut Rng) {
    for key in (0..=21).chain([usize::MAX]) {
        let name = key.checked_sub(1).and_then(|k| KEYS.get(k)).map_or("", |k| k.0);
        put(t, "put_key", name, &|d, at| probe::put_key(key, d, at));
        for word in (0..=5).chain([usize::MAX]) {
            let name = word.checked_sub(1).and_then(|w| words(key).get(w)).copied().unwrap_or("");
            put(t, "put_word", name, &|d, at| probe::put_word(key, word, d, at));
        }
    }
    let names: Vec<&str> = KEYS.iter().flat_map(|k| [k.0].into_iter().chain(k.1.iter().copied())).chain(PREFIXES).collect();
    let pieces: Vec<&[u8]> = names.iter().map(|n| n.as_bytes()).collect();
    sequences(&pieces, 0, if large { 3 } else { 2 }, &mut |s| looked_up(t, s));
    for name in names {
        for n in 0..name.len() {
            looked_up(t, &name.as_bytes()[..n]);
            looked_up(t, &name.as_bytes()[n..]);
        }
        for _ in 0..if large { 2_000 } else { 100 } {
            let mut s = name.as_bytes().to_vec();
            damage(rng, &mut s, b"_-/:aeorstw");
            looked_up(t, &s);
            damage(rng, &mut s, b"\0 EUS=");
            looked_up(t, &s);
        }
    }
}
