// What one text costs: the proved archive and the Rust that is ported, called in one program.
//   bench count   calls each reader on each text, a second time between two marks that count.c counts between; a line for each call
//   bench stack   calls each on a stack of its own, painted before, and tells how far down the paint is gone
mod texts;

use std::arch::asm;
use original::api::client::config::Config;
use texts::Text;

extern "C" {
    fn nyimbrak_answer(text: *const u8, tn: usize, decode: *mut u8, dn: usize) -> u64;
    fn nyimbrak_place(text: *const u8, tn: usize, decode: *mut u8, dn: usize, key: u32) -> u64;
    fn nyimbrak_read(text: *const u8, tn: usize, decode: *mut u8, dn: usize, report: *mut u8, rn: usize) -> u32;
}

/// All that a call lends or keeps. Buffers are as the call before left them.
struct Job {
    text: String,
    decode: Vec<u8>,
    report: Vec<u8>,
    number: u64,
    config: Option<Config>,
}

fn nothing(job: &mut Job) {
    job.number = 0;
}

fn answer(job: &mut Job) {
    job.number = unsafe { nyimbrak_answer(job.text.as_ptr(), job.text.len(), job.decode.as_mut_ptr(), job.decode.len()) };
}

/// The record is made, and one of its places told.
fn place(job: &mut Job) {
    job.number = unsafe { nyimbrak_place(job.text.as_ptr(), job.text.len(), job.decode.as_mut_ptr(), job.decode.len(), 1) };
}

fn read(job: &mut Job) {
    let (text, decode, report) = (&job.text, &mut job.decode, &mut job.report);
    job.number = unsafe {
        nyimbrak_read(text.as_ptr(), text.len(), decode.as_mut_ptr(), decode.len(), report.as_mut_ptr(), report.len()) as u64
    };
}

/// The Rust is given a text that is known to be UTF-8.
fn from_str(job: &mut Job) {
    job.config = job.text.parse::<Config>().ok();
}

fn drop_it(job: &mut Job) {
    job.config = None;
}

type Call = fn(&mut Job);

/// Each measured call by its name.
const CALLS: [(&str, Call); 6] =
    [("nothing", nothing), ("answer", answer), ("place", place), ("read", read), ("from_str", from_str), ("drop", drop_it)];

/// The same call, which the compiler can't know, so that each is called alike.
fn opaque(call: Call) -> Call {
    unsafe { std::ptr::read_volatile(&call) }
}

#[inline(never)]
fn marked(call: Call, job: &mut Job) {
    unsafe { asm!(".byte 0x0f, 0x1f, 0x80", ".ascii \"from\"") };
    call(job);
    unsafe { asm!(".byte 0x0f, 0x1f, 0x80", ".ascii \"upto\"") };
}

fn job_of(text: &Text) -> Job {
    Job { text: text.text.clone(), decode: vec![0; 4096], report: vec![0; 13795], number: 0, config: None }
}

/// Both sides take a text, or both refuse it.
fn check(text: &Text) {
    let mut job = job_of(text);
    from_str(&mut job);
    answer(&mut job);
    assert_eq!(job.number & 255 == 0, job.config.is_some(), "{}", text.name);
}

fn count(part: &str, text: &Text) {
    let mut job = job_of(text);
    // the first round fills caches, binds symbols and lets the allocator start
    for round in 0..2 {
        for (name, call) in CALLS {
            if round == 0 {
                call(&mut job);
                continue;
            }
            println!("{}\t{}\t{}\t{}", part, text.name, text.text.len(), name);
            marked(opaque(call), &mut job);
        }
    }
}

const PAINT: u8 = 0xa5;
const STACK: usize = 1 << 20;

extern "C" fn entered(call: &Call, job: &mut Job) {
    call(job);
}

/// How many bytes of stack a call reaches down, what it leaves untouched there included.
fn depth(call: Call, job: &mut Job) -> usize {
    let mut stack = vec![PAINT; STACK];
    let top = stack.as_mut_ptr() as usize + STACK & !15;
    let call = opaque(call);
    unsafe {
        asm!("mov r12, rsp", "mov rsp, {top}", "call {entered}", "mov rsp, r12", top = in(reg) top,
            entered = in(reg) entered as usize, in("rdi") &call, in("rsi") &mut *job, out("r12") _, clobber_abi("C"));
    }
    let lowest = stack.iter().position(|b| *b != PAINT).unwrap_or(STACK);
    top - (stack.as_ptr() as usize + lowest)
}

fn stack(text: &Text) {
    for (name, call) in CALLS {
        let mut job = job_of(text);
        let least = depth(nothing, &mut job);
        println!("stack\t{}\t{}\t{}\t{}", text.name, text.text.len(), name, depth(call, &mut job) - least);
    }
}

fn main() {
    let part = std::env::args().nth(1).unwrap_or_default();
    assert!(part == "count" || part == "stack", "usage: bench count|stack");
    for text in texts::texts() {
        check(&text);
        if part == "count" { count("text", &text) } else { stack(&text) }
    }
    if part == "count" {
        for text in texts::growing() {
            check(&text);
            count("growing", &text);
        }
    }
}
