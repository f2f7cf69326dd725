//! Runs a program and makes one of its calls of the system fail. `bench/faults` compiles it, for Linux on x86-64.
//!
//!     faults TOLD KIND AT PROGRAM WORDS..
//!
//! `AT` says which call of the kind, from 1 on; 0 is none. `io`: that read, write or sync answers EIO and does nothing. `short`: that
//! read or write of several bytes is one of a single byte. `memory`: that call for more memory and all later ones find none. The file
//! `TOLD` gets the number of calls of the kind, and the status is the program's.
use std::os::unix::process::{CommandExt, ExitStatusExt};
use std::process::{Command, ExitStatus, exit};

extern "C" {
    fn ptrace(request: i64, pid: i32, at: usize, data: usize) -> i64;
    fn waitpid(pid: i32, status: *mut i32, options: i32) -> i32;
}

const TRACE_ME: i64 = 0;
const GET_REGISTERS: i64 = 12;
const SET_REGISTERS: i64 = 13;
const TO_NEXT_CALL: i64 = 24;
const SET_OPTIONS: i64 = 0x4200;
/// Stops at calls are told from other signals; a program whose tracer ends is killed.
const OPTIONS: usize = 0x1 | 0x10_0000;
const CALL_STOP: i32 = 5 | 0x80;

const READ: u64 = 0;
const WRITE: u64 = 1;
const MMAP: u64 = 9;
const BRK: u64 = 12;
const PREAD: u64 = 17;
const PWRITE: u64 = 18;
const FSYNC: u64 = 74;
const FDATASYNC: u64 = 75;
const EIO: i64 = -5;
const ENOMEM: i64 = -12;

/// The registers of x86-64 in the order in which the system tells them.
#[repr(C)]
#[derive(Default)]
struct Registers {
    front: [u64; 10],
    rax: u64,
    rcx: u64,
    rdx: u64,
    rsi: u64,
    rdi: u64,
    orig_rax: u64,
    back: [u64; 11],
}

#[derive(Clone, Copy, PartialEq)]
enum Kind {
    Io,
    Short,
    Memory,
}

impl Kind {
    /// Whether the call that the program begins is of this kind.
    fn has(self, it: &Registers) -> bool {
        match self {
            Kind::Io => [READ, WRITE, PREAD, PWRITE, FSYNC, FDATASYNC].contains(&it.orig_rax),
            Kind::Short => [READ, WRITE, PREAD, PWRITE].contains(&it.orig_rax) && it.rdx > 1,
            // (without a file)
            Kind::Memory => it.orig_rax == BRK && it.rdi != 0 || it.orig_rax == MMAP && it.front[9] as i32 == -1,
        }
    }

    /// Changes the call, and says what it shall answer where it is not made.
    fn strike(self, it: &mut Registers) -> Option<i64> {
        match self {
            Kind::Short => {
                it.rdx = 1;
                None
            }
            // The question where the memory ends is answered, and that is below what was asked for.
            Kind::Memory if it.orig_rax == BRK => {
                it.rdi = 0;
                None
            }
            Kind::Memory => {
                it.orig_rax = u64::MAX;
                Some(ENOMEM)
            }
            Kind::Io => {
                it.orig_rax = u64::MAX;
                Some(EIO)
            }
        }
    }
}

fn main() {
    let words: Vec<String> = std::env::args().skip(1).collect();
    let [told, kind, at, program, rest @ ..] = words.as_slice() else {
        eprintln!("faults: TOLD KIND AT PROGRAM WORDS..");
        exit(2);
    };
    let kind = match kind.as_str() {
        "io" => Kind::Io,
        "short" => Kind::Short,
        _ => Kind::Memory,
    };
    let at: u64 = at.parse().expect("a number");
    let mut command = Command::new(program);
    command.args(rest);
    unsafe {
        command.pre_exec(|| {
            ptrace(TRACE_ME, 0, 0, 0);
            Ok(())
        });
    }
    let child = command.spawn().expect("the program begins");
    let (status, calls) = follow(child.id() as i32, kind, at);
    std::fs::write(told, calls.to_string()).expect("a file for the number of calls");
    exit(status.code().unwrap_or(128 + status.signal().unwrap_or(0)));
}

/// Lets the process run from call to call, up to its end.
fn follow(pid: i32, kind: Kind, at: u64) -> (ExitStatus, u64) {
    let (mut status, mut calls, mut signal) = (0, 0, 0);
    // What the call that was struck is asked by, and what it answers where it is not made.
    let mut struck: Option<((u64, u64), Option<i64>)> = None;
    let mut is_begun = false;
    unsafe {
        // (it stands at its beginning)
        waitpid(pid, &mut status, 0);
        ptrace(SET_OPTIONS, pid, 0, OPTIONS);
        loop {
            ptrace(TO_NEXT_CALL, pid, 0, signal);
            waitpid(pid, &mut status, 0);
            if status & 0xff != 0x7f {
                return (ExitStatus::from_raw(status), calls);
            }
            let stopped = status >> 8 & 0xff;
            signal = if stopped == CALL_STOP { 0 } else { stopped as usize };
            if stopped != CALL_STOP {
                continue;
            }
            let mut it = Registers::default();
            ptrace(GET_REGISTERS, pid, 0, &mut it as *mut Registers as usize);
            is_begun = !is_begun;
            if !is_begun {
                if let Some((asked, answer)) = struck.take() {
                    // A call changes none of the registers that it is asked by.
                    (it.rdi, it.rdx) = asked;
                    it.rax = answer.map_or(it.rax, |value| value as u64);
                    ptrace(SET_REGISTERS, pid, 0, &mut it as *mut Registers as usize);
                }
            } else if kind.has(&it) {
                calls += 1;
                if at > 0 && (calls == at || kind == Kind::Memory && calls > at) {
                    let asked = (it.rdi, it.rdx);
                    struck = Some((asked, kind.strike(&mut it)));
                    ptrace(SET_REGISTERS, pid, 0, &mut it as *mut Registers as usize);
                }
            }
        }
    }
}
