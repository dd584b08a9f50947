//! `used PROGRAM WORDS..` runs a program and says in a last line on standard error what it used: microseconds of processor
//! time and kilobytes of resident memory at its peak. It ends as the program does. The peak that Linux tells a parent of its
//! child is at least the parent's own, so a parent has to be small: this one has some 2,000 kilobytes.

use std::process::{self, Command};
use std::{env, mem};

/// What getrusage writes, in 64 bits a number: seconds and microseconds of both kinds of time, the peak, and more.
#[repr(C)]
struct Usage {
    user: [i64; 2],
    system: [i64; 2],
    peak: i64,
    more: [i64; 13],
}

const CHILDREN: i32 = -1;

extern "C" {
    fn getrusage(who: i32, usage: *mut Usage) -> i32;
}

fn used_by_children() -> Usage {
    // Numbers, which may all be 0, and as many as the call writes.
    unsafe {
        let mut usage = mem::zeroed();
        assert_eq!(getrusage(CHILDREN, &mut usage), 0);
        usage
    }
}

fn main() {
    let mut words = env::args_os().skip(1);
    let Some(program) = words.next() else {
        eprintln!("usage: used PROGRAM WORDS..");
        process::exit(3);
    };
    let ended = match Command::new(program).args(words).status() {
        Ok(ended) => ended,
        Err(fault) => {
            eprintln!("used: {fault}");
            process::exit(5);
        }
    };
    let Usage {
        user, system, peak, ..
    } = used_by_children();
    let time = (user[0] + system[0]) * 1_000_000 + user[1] + system[1];
    eprintln!("{time} {peak}");
    process::exit(ended.code().unwrap_or(5));
}
