//! A keeper with all that it starts: a process group of its own, ended as one. The standard library can begin a group
//! but ends only its first process, so that the three calls of the system stand here, and nowhere else.

#![allow(unsafe_code)]

use std::os::unix::process::CommandExt;
use std::process::{Child, Command};
use std::sync::atomic::{AtomicI32, Ordering};

const SIGHUP: i32 = 1;
const SIGINT: i32 = 2;
const SIGKILL: i32 = 9;
const SIGTERM: i32 = 15;

/// What a handler may be instead of a function.
const DEFAULT: usize = 0;
const IGNORED: usize = 1;

extern "C" {
    fn kill(process: i32, signal: i32) -> i32;
    fn signal(number: i32, handler: usize) -> usize;
    fn raise(number: i32) -> i32;
}

/// The group that an interrupt ends; 0 is none. The judge as a program has one keeper at a time.
static RUNNING: AtomicI32 = AtomicI32::new(0);

fn end(leader: i32) {
    // 0 and -1 would mean other processes than the group's.
    if leader > 1 {
        // SAFETY: numbers go in and a number comes out. That the group is gone already is no fault.
        unsafe { kill(-leader, SIGKILL) };
    }
}

extern "C" fn interrupted(number: i32) {
    end(RUNNING.load(Ordering::SeqCst));
    // SAFETY: both may be called in a handler. The signal is held back until it returns, and then ends the judge.
    unsafe {
        signal(number, DEFAULT);
        raise(number);
    }
}

/// From now on an interrupt ends the keeper too: in a group of its own it gets none from the terminal.
pub fn end_with_the_judge() {
    for number in [SIGHUP, SIGINT, SIGTERM] {
        // SAFETY: the handler has the form that `signal` asks for and lives as long as the program. It only loads an
        // atomic and calls what may be called in a handler.
        unsafe {
            if signal(number, interrupted as extern "C" fn(i32) as usize) == IGNORED {
                signal(number, IGNORED);
            }
        }
    }
}

/// A command whose process leads a group.
pub fn lead(command: &mut Command) -> &mut Command {
    command.process_group(0)
}

/// The group of a process that leads one.
pub struct Group(i32);

impl Group {
    pub fn of(child: &Child) -> Self {
        let leader = i32::try_from(child.id()).unwrap_or(0);
        RUNNING.store(leader, Ordering::SeqCst);
        Self(leader)
    }

    /// Ends all of it. Its number is not given anew while a process of it lives.
    pub fn end(self) {
        end(self.0);
        let _ = RUNNING.compare_exchange(self.0, 0, Ordering::SeqCst, Ordering::SeqCst);
    }
}
