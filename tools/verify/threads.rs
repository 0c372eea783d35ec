//! Work that threads share in plain Rust, for the checker of fills and the benchmarks alone.
#![allow(dead_code)] // no benchmark uses all of it
use std::sync::{Mutex, OnceLock};

/// How many processors there are. The system is asked once, since the answer takes up to 40 microseconds.
fn processors() -> usize {
    static COUNT: OnceLock<usize> = OnceLock::new();
    *COUNT.get_or_init(|| std::thread::available_parallelism().map_or(1, |count| count.get()))
}

/// Does the work of each item, on as many threads as there are processors: each takes the next item that none has taken. This thread
/// waits for them, since one that it began is often given its processor while it works on. What a thread writes often is best its own
/// until it is whole: the lengths of lists that lie side by side would go from one processor to the other at each write.
pub fn share_out<T: Send>(items: impl Iterator<Item = T> + Send, work: impl Fn(T) + Sync) {
    let threads = processors();
    let items = Mutex::new(items);
    let next = || items.lock().expect("no thread panics").next();
    let turns = || {
        while let Some(item) = next() {
            work(item);
        }
    };
    if threads == 1 {
        return turns();
    }
    std::thread::scope(|scope| {
        (0..threads).for_each(|_| {
            scope.spawn(turns);
        });
    });
}

/// Lets go of the values on as many threads as there are processors.
pub fn let_go<T: Send>(values: Vec<T>) {
    let threads = processors();
    let size = values.len().div_ceil(threads).max(1);
    let mut values = values.into_iter();
    let shares = (0..threads).map(|_| values.by_ref().take(size).collect::<Vec<T>>()).collect::<Vec<_>>();
    share_out(shares.into_iter(), drop);
}

/// What a call answers. The value is let go of, by another thread meanwhile where that takes long.
pub fn beside<T: Send, X>(value: T, takes_long: bool, call: impl FnOnce() -> X) -> X {
    if !takes_long {
        drop(value);
        return call();
    }
    std::thread::scope(|scope| {
        scope.spawn(move || drop(value));
        call()
    })
}
