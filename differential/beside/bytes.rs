// Crate byte: whether bytes stand at a place, copying and clearing within lent memory.
use crate::corpus::{any_of, texts, Rng};
use crate::lent::{rooms, Lent};
use crate::probe;
use crate::tally::{Tally, Text};

fn stands(t: &mut Tally, w: &[u8], at: usize, s: &[u8]) {
    let rust = s.get(at..).map_or(false, |rest| rest.starts_with(w));
    t.same("stands_at", &(Text(w), at, Text(s)), rust, probe::stands_at(w, at, s));
}

fn writes(t: &mut Tally, x: &[u8]) {
    for (len, at) in rooms(x.len()) {
        let (mut rust, mut ours) = (Lent::of(len), Lent::of(len));
        let answers = (rust.written(at, x), probe::copy(x, ours.part(), at));
        t.same("copy", &(Text(x), len, at), (answers.0, rust), (answers.1, ours));
        let (mut rust, mut ours) = (Lent::of(len), Lent::of(len));
        let answers = (rust.written(at, &vec![0; x.len()]), probe::clear(ours.part(), at, x.len()));
        t.same("clear", &(x.len(), len, at), (answers.0, rust), (answers.1, ours));
    }
}

fn put(t: &mut Tally, b: u8) {
    for (len, at) in rooms(1) {
        let (mut rust, mut ours) = (Lent::of(len), Lent::of(len));
        let answers = (rust.written(at, &[b]), probe::put(ours.part(), at, b));
        t.same("put", &(b, len, at), (answers.0, rust), (answers.1, ours));
    }
}

pub fn run(t: &mut Tally, large: bool, rng: &mut Rng) {
    let most = if large { 4 } else { 3 };
    texts(b"ab", most, &mut |w| {
        texts(b"ab", most, &mut |s| {
            for at in (0..s.len() + 2).chain([usize::MAX - 1, usize::MAX]) {
                stands(t, w, at, s);
            }
        })
    });
    for b in 0..=255 {
        put(t, b);
    }
    for _ in 0..if large { 20_000 } else { 2_000 } {
        let s = any_of(rng, &[b"\0", b"a", b"b", b"\xff", b"port"], 40);
        writes(t, &s);
        let from = rng.below(s.len() + 1);
        let to = from + rng.below(s.len() + 1 - from);
        stands(t, &s[from..to], from, &s);
        stands(t, &s[from..to], rng.below(s.len() + 2), &s);
    }
}
