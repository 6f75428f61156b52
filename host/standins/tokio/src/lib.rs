//! Stand-in for `tokio`: a clock that the driver sets, channels that it fills, and a `select!` in which a timer is ready
//! only when the driver has armed the branch by its text. Real timers could not give any wake at any clock.

pub mod driver;
pub mod sync;
pub mod time;

#[doc(hidden)]
pub mod branch;

/// Polls all branches in the written order and runs the first that is ready.
///
/// `biased;` is accepted and changes nothing. A pattern that does not match its value can't occur here: the driver
/// never closes a channel.
#[macro_export]
macro_rules! select {
    (biased; $($arms:tt)*) => { $crate::select!($($arms)*) };
    ($($arms:tt)*) => {{
        let outcome = { $crate::select_futures!($($arms)*) }.await;
        $crate::select_bodies!(outcome, $($arms)*)
    }};
}

#[doc(hidden)]
#[macro_export]
macro_rules! select_futures {
    () => { $crate::branch::End };
    ($pattern:pat = $future:expr => $body:block $($rest:tt)*) => {
        $crate::branch::Branch {
            name: stringify!($future),
            future: Box::pin($future),
            rest: $crate::select_futures!($($rest)*),
        }
    };
}

#[doc(hidden)]
#[macro_export]
macro_rules! select_bodies {
    ($outcome:expr, ) => { match $outcome {} };
    ($outcome:expr, $pattern:pat = $future:expr => $body:block $($rest:tt)*) => {
        match $outcome {
            $crate::branch::Either::This(value) => match value {
                $pattern => $body
                #[allow(unreachable_patterns)]
                _ => unreachable!("a branch gave a value that its pattern refuses"),
            },
            $crate::branch::Either::Later(later) => $crate::select_bodies!(later, $($rest)*),
        }
    };
}
