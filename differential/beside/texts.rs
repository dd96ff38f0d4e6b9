// The reader beside the Rust that is ported: number, key, count, every byte of lent memory and the report, for every text.
use crate::corpus::Rng;
use crate::lent::Lent;
use crate::model::{self, Answer};
use crate::readings;
use crate::tally::{Tally, Text};

/// What the Rust that is ported says of a text, which the plain writing of 01 must say too; that alone where the Rust is not at hand.
fn wanted(t: &mut Tally, text: &[u8], room: usize) -> Answer {
    let plain = model::answer(text, room);
    #[cfg(original)]
    {
        let rust = original::told(text, room);
        let rust = Answer { number: rust.number, key: rust.key, count: rust.count, decode: rust.decode, report: rust.report };
        t.agree("01 in plain Rust", &(Text(text), room), &rust, &plain);
        return rust;
    }
    #[allow(unreachable_code)]
    {
        let _ = t;
        plain
    }
}

/// What a text must leave in a decode buffer.
fn left(want: &Answer, room: usize) -> Lent {
    let mut lent = Lent::of(room);
    if let Some(decode) = &want.decode {
        lent.written(0, decode);
    }
    lent
}

fn text(t: &mut Tally, n: u64, text: &[u8]) -> u32 {
    // exact, longer, and now and then too short
    let room = match n % 50 {
        0 => text.len().saturating_sub(1),
        1 => text.len() / 2,
        k => text.len() + [0, 0, 1, 7, 64][k as usize % 5],
    };
    let want = wanted(t, text, room);
    compare(t, n, text, room, &want);
    want.number
}

/// Number, key and count, and every byte of the decode buffer.
fn compare(t: &mut Tally, n: u64, text: &[u8], room: usize, want: &Answer) {
    let mut decode = Lent::of(room);
    let got = crate::dock::answer(text, decode.part());
    t.same("nyimbrak_answer", &(Text(text), room), (want.number, want.key, want.count, left(want, room)), (got.0, got.1, got.2, decode));
    compare_report(t, n, text, room, want);
}

/// The report into an exact buffer, one byte short, none, and longer.
fn compare_report(t: &mut Tally, n: u64, text: &[u8], room: usize, want: &Answer) {
    let full = want.report.len();
    let report_room = [full, full.saturating_sub(1), full + 9, 0][n as usize % 4];
    let (mut rust, mut decode, mut report) = (Lent::of(report_room), Lent::of(room), Lent::of(report_room));
    let number = match want.number {
        0 if full <= report_room => rust.written(0, &want.report) as u32,
        0 => 1_000_016,
        refusal => 1_000_000 + refusal,
    };
    let got = crate::dock::read(text, decode.part(), report.part());
    t.agree("nyimbrak_read", &(Text(text), room, report_room), &(number, left(want, room), rust), &(got, decode, report));
}

pub fn run(t: &mut Tally, large: bool, rng: &mut Rng) {
    let (mut n, mut numbers) = (0, [0u64; 16]);
    readings::each(large, rng, &mut |s| {
        numbers[text(t, n, s) as usize] += 1;
        n += 1;
    });
    let shown: Vec<String> = numbers.iter().enumerate().map(|(i, n)| format!("{}: {}", i, n)).collect();
    println!("  of which are answered by {}", shown.join(", "));
}
