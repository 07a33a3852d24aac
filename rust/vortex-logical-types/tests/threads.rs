// SPDX-License-Identifier: Apache-2.0
// SPDX-FileCopyrightText: Copyright the Vortex contributors

//! The counted pointer of `rattle_std::rc` on eight threads: a million clones and drops of a value and of a text, and
//! values that all threads unwrap or drop at once. `valgrind.sh` runs the same under memcheck and helgrind. (So the threads
//! meet only where they begin and end, and there is no harness of tests: helgrind knows no other place where threads of
//! Rust's library meet.)

use std::sync::atomic::{AtomicUsize, Ordering};
use std::thread;
use vortex_logical_types::rattle_std::rc::{Rc, RcStr};

const THREADS: usize = 8;

/// A value that counts how often values of its kind are dropped.
struct Counting {
    dropped: &'static AtomicUsize,
    text: String,
}

impl Drop for Counting {
    fn drop(&mut self) {
        self.dropped.fetch_add(1, Ordering::Relaxed);
    }
}

fn counting(dropped: &'static AtomicUsize) -> Rc<Counting> {
    let text = String::from("a value that is read");
    Rc::new(Counting { dropped, text })
        .ok()
        .expect("there is memory")
}

/// Runs this on each thread, with its pointers, and waits for all.
fn on_each_thread<T: Send + 'static>(mut make: impl FnMut() -> T, run: fn(T)) {
    let threads: Vec<_> = (0..THREADS)
        .map(|_| {
            let own = make();
            thread::spawn(move || run(own))
        })
        .collect();
    for thread in threads {
        thread.join().expect("the thread ends");
    }
}

fn a_million_clones_and_drops() {
    static DROPPED: AtomicUsize = AtomicUsize::new(0);
    let value = counting(&DROPPED);
    let text = RcStr::from_str("a text that is read").expect("there is memory");
    let first = (Clone::clone(&value), Clone::clone(&text));
    on_each_thread(
        || first.clone(),
        |(mut value, mut text)| {
            for round in 0..1_000_000 / THREADS {
                // (the pointer that was there is dropped)
                value = Clone::clone(&value);
                text = Clone::clone(&text);
                if round % 1_000 == 0 {
                    assert!(value.text.len() == 20 && text.len() == 19);
                }
            }
        },
    );
    drop(first);
    assert_eq!(DROPPED.load(Ordering::Relaxed), 0);
    assert!(Rc::try_unwrap(value).is_ok_and(|value| value.text == "a value that is read"));
    assert_eq!(DROPPED.load(Ordering::Relaxed), 1);
    assert_eq!(text.as_str(), "a text that is read");
}

fn the_last_of_all_threads_drops_or_unwraps() {
    static DROPPED: AtomicUsize = AtomicUsize::new(0);
    const VALUES: usize = 10_000;
    let all: Vec<Rc<Counting>> = (0..VALUES).map(|_| counting(&DROPPED)).collect();
    let mut owners: Vec<_> = (1..THREADS).map(|_| all.clone()).collect();
    owners.push(all);
    on_each_thread(
        || owners.pop().expect("each thread has a clone of each"),
        |own| {
            for (place, value) in own.into_iter().enumerate() {
                assert_eq!(value.text.len(), 20);
                match place % 2 {
                    0 => drop(value),
                    _ => drop(Rc::try_unwrap(value)),
                }
            }
        },
    );
    assert_eq!(DROPPED.load(Ordering::Relaxed), VALUES);
}

fn main() {
    a_million_clones_and_drops();
    the_last_of_all_threads_drops_or_unwraps();
}
