//! The Rust's machine and its root future, parked between two steps. All the unsafe code stands here.

use crate::state::probe::{self, Sync};
use std::future::Future;
use std::pin::Pin;
use std::task::{Context, Poll, Waker};

/// The machine, and the future of its loop, which borrows it for as long as it lives.
pub struct Parked {
    machine: *mut Sync,
    future: Option<Pin<Box<dyn Future<Output = ()>>>>,
}

impl Parked {
    pub fn new(machine: Sync) -> Self {
        let machine = Box::into_raw(Box::new(machine));
        // SAFETY: the box lives until `drop`, which ends the future first.
        let borrowed: &'static mut Sync = unsafe { &mut *machine };
        Self {
            machine,
            future: Some(Box::pin(probe::run_inner(borrowed))),
        }
    }

    /// Runs the loop up to its next parking place. Once it has returned it is gone.
    pub fn poll(&mut self) -> Poll<()> {
        let Some(future) = self.future.as_mut() else {
            return Poll::Ready(());
        };
        let polled = future
            .as_mut()
            .poll(&mut Context::from_waker(Waker::noop()));
        if polled.is_ready() {
            self.future = None;
        }
        polled
    }

    pub fn read<R>(&self, reader: impl FnOnce(&Sync) -> R) -> R {
        // SAFETY: the machine is alive, and the future, which alone writes it, does not run while it is parked. The
        // reference ends before the next poll. The pointer has escaped, so no poll can hold an older value.
        reader(unsafe { &*self.machine })
    }

    pub fn write<R>(&mut self, writer: impl FnOnce(&mut Sync) -> R) -> R {
        // SAFETY: as for `read`; `&mut self` keeps out a poll and a reader.
        writer(unsafe { &mut *self.machine })
    }
}

impl Drop for Parked {
    fn drop(&mut self) {
        self.future = None;
        // SAFETY: made by `Box::into_raw` in `new`, given up only here, and its borrower is gone.
        drop(unsafe { Box::from_raw(self.machine) });
    }
}
