//! The futures of a `select!`, polled one after another.

use crate::driver;
use std::future::Future;
use std::pin::Pin;
use std::task::{Context, Poll};

/// The value of this branch or of a later one.
pub enum Either<T, L> {
    This(T),
    Later(L),
}

/// One branch and those written after it.
pub struct Branch<F, R> {
    pub name: &'static str,
    pub future: Pin<Box<F>>,
    pub rest: R,
}

/// No branch: never ready.
pub struct End;

/// The value that `End` never gives.
pub enum Never {}

impl Future for End {
    type Output = Never;

    fn poll(self: Pin<&mut Self>, _: &mut Context<'_>) -> Poll<Never> {
        Poll::Pending
    }
}

impl<F: Future, R: Future + Unpin> Future for Branch<F, R> {
    type Output = Either<F::Output, R::Output>;

    fn poll(mut self: Pin<&mut Self>, context: &mut Context<'_>) -> Poll<Self::Output> {
        driver::enter_branch(self.name);
        if let Poll::Ready(value) = self.future.as_mut().poll(context) {
            return Poll::Ready(Either::This(value));
        }
        Pin::new(&mut self.rest).poll(context).map(Either::Later)
    }
}
