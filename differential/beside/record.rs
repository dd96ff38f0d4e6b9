// Settings applied by crates param and report, through the archive of crate probe_record, beside `Config::param`.
use crate::corpus::Rng;
use crate::lent::Lent;
use crate::model::{self, Setting};
use crate::readings;
use crate::tally::Tally;

/// The outcome as the archive tells it: the refusal's number and key, the place of the first setting that was not applied, and the
/// report's length, or 1,000,000 plus what refuses it.
#[repr(C)]
struct Told {
    number: usize,
    key: usize,
    at: usize,
    len: usize,
}

extern "C" {
    fn probe_settings(n: usize, list: *const u8, ln: usize, dst: *mut u8, dn: usize) -> Told;
}

type Given = (Option<&'static str>, Vec<u8>);

/// The settings in bytes, and the place where each of them begins and the last one ends.
fn in_bytes(list: &[Given]) -> (Vec<u8>, Vec<usize>) {
    let (mut out, mut places) = (vec![], vec![0]);
    for (key, value) in list {
        match key {
            None => out.push(255),
            Some(key) => {
                out.push(key.len() as u8);
                out.extend_from_slice(key.as_bytes());
            }
        }
        out.extend_from_slice(&(value.len() as u16).to_be_bytes());
        out.extend_from_slice(value);
        places.push(out.len());
    }
    (out, places)
}

/// What `Config::param` makes of a list, which the plain writing of 01 must make of it too; that alone where the Rust is not at hand.
fn wanted(t: &mut Tally, list: &[Given]) -> (u32, u32, usize, Vec<u8>) {
    let plain: Vec<Setting> = list
        .iter()
        .map(|(key, v)| match key {
            Some(key) => Setting::Keyed(key.as_bytes().to_vec(), v.clone()),
            None => Setting::OneHost(v.clone()),
        })
        .collect();
    let plain = model::applied(&plain);
    #[cfg(original)]
    {
        let given: Vec<original::Setting> = list.iter().map(|(key, v)| (*key, v.as_slice())).collect();
        if let Some(rust) = original::applied(&given) {
            t.agree("01 in plain Rust, of settings", &list, &rust, &plain);
            return rust;
        }
    }
    let _ = t;
    plain
}

fn compare(t: &mut Tally, n: usize, list: &[Given]) {
    let (number, key, count, report) = wanted(t, list);
    let (bytes, places) = in_bytes(list);
    // the report into an exact buffer, one byte short, none, and longer
    let room = [report.len(), report.len() - 1, report.len() + 9, 0][n % 4];
    let (mut rust, mut ours) = (Lent::of(room), Lent::of(room));
    let len = if report.len() <= room { rust.written(0, &report) } else { 1_000_016 };
    let dst = ours.part();
    let told = unsafe { probe_settings(list.len(), bytes.as_ptr(), bytes.len(), dst.as_mut_ptr(), dst.len()) };
    t.same(
        "settings",
        &(list, room),
        (number as usize, key as usize, places[count], len, rust),
        (told.number, told.key, told.at, told.len, ours),
    );
}

pub fn run(t: &mut Tally, large: bool, rng: &mut Rng) {
    let (mut lists, mut given) = (0, 0);
    let mut one = |list: &[Given]| {
        compare(t, lists, list);
        lists += 1;
        given += list.len();
    };
    readings::each_setting(&mut one);
    for _ in 0..if large { 1_000_000 } else { 15_000 } {
        one(&readings::settings(rng));
    }
    println!("  {} settings in {} lists", given, lists);
}
