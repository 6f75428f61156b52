//! Instants on the driver's clock, and timers that fire when the driver says so.

use crate::driver;
use std::future::Future;
use std::pin::Pin;
use std::task::{Context, Poll};

pub use std::time::Duration;

/// A moment on the driver's clock.
#[derive(Debug, Clone, Copy, PartialEq, Eq, PartialOrd, Ord)]
pub struct Instant(u64);

impl Instant {
    pub fn now() -> Self {
        Self(driver::clock())
    }

    pub fn from_millis(milliseconds: u64) -> Self {
        Self(milliseconds)
    }

    pub fn as_millis(self) -> u64 {
        self.0
    }

    /// Zero if `earlier` is later, as in tokio.
    pub fn duration_since(&self, earlier: Self) -> Duration {
        Duration::from_millis(self.0.saturating_sub(earlier.0))
    }

    pub fn elapsed(&self) -> Duration {
        Self::now().duration_since(*self)
    }
}

/// A timer: ready when the driver armed the branch in which it is polled.
pub struct Timer;

impl Future for Timer {
    type Output = ();

    fn poll(self: Pin<&mut Self>, _: &mut Context<'_>) -> Poll<()> {
        if driver::fires() {
            Poll::Ready(())
        } else {
            Poll::Pending
        }
    }
}

pub fn sleep(_: Duration) -> Timer {
    Timer
}

pub struct Interval;

pub fn interval(_: Duration) -> Interval {
    Interval
}

impl Interval {
    pub fn tick(&mut self) -> Timer {
        Timer
    }
}
