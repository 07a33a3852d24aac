// SPDX-License-Identifier: Apache-2.0
// SPDX-FileCopyrightText: Copyright the Vortex contributors

//! A model of the counted pointer of `rattle_std::rc`: two threads that clone, read, unwrap and drop their pointers to one
//! block, at the level of its atomic operations. Every interleaving of any two programs of three calls is visited. In each
//! of them nobody uses the block after it was freed, it is freed once, and at most one `try_unwrap` succeeds.
//!
//! The orderings of the operations are modelled, too. Each thread knows of some steps of the other: `Release` writes what
//! it knows to the count, and `Acquire` reads that. Whoever frees the block must know of all that the other thread did with
//! it. So a `Relaxed` in place of a `Release` is a race here, although an x86 processor would run it rightly.

use std::collections::{BTreeSet, HashSet};

/// What a thread does with one of its pointers. (`Read` reads the value.)
#[derive(Clone, Copy, Debug, PartialEq, Eq, Hash)]
enum Call {
    Clone,
    Read,
    Unwrap,
    Drop,
}

const CALLS: [Call; 4] = [Call::Clone, Call::Read, Call::Unwrap, Call::Drop];

/// The operations as they are written, or with one mistake.
#[derive(Clone, Copy, Debug, PartialEq)]
enum Form {
    Written,
    CloneLoadsThenStores,
    DropLoadsThenStores,
    DropTestsAfterwards,
    DropWithoutRelease,
    DropWithoutFence,
    UnwrapCountsDownThenUp,
    UnwrapWithoutAcquire,
    UnwrapIgnoresOthers,
}

#[derive(Debug, PartialEq, Eq, PartialOrd, Ord)]
enum Fault {
    UsedAfterFree,
    FreedTwice,
    NeverFreed,
    UnwrappedTwice,
    Race,
}

/// What a thread does next within its call. `Store` has the count that was loaded, `Fence` what the count told.
#[derive(Clone, Copy, Debug, PartialEq, Eq, Hash)]
enum Step {
    Begin,
    Store(usize),
    CountUp,
    Test,
    Fence(Clock),
    Free,
}

/// The number of the last step of each thread that is known.
type Clock = [usize; 2];

#[derive(Clone, PartialEq, Eq, Hash)]
struct Thread {
    calls: Vec<Call>,
    step: Step,
    pointers: usize,
    knows: Clock,
}

#[derive(Clone, PartialEq, Eq, Hash)]
struct State {
    threads: [Thread; 2],
    count: usize,
    // What a thread knows after it has read the count with `Acquire`.
    released: Clock,
    freed: bool,
    unwrapped: usize,
}

fn join(knows: &mut Clock, other: Clock) {
    *knows = [knows[0].max(other[0]), knows[1].max(other[1])];
}

impl State {
    /// Two threads with a pointer each.
    fn new(calls: [Vec<Call>; 2]) -> State {
        let threads = calls.map(|calls| Thread {
            calls,
            step: Step::Begin,
            pointers: 1,
            knows: [0; 2],
        });
        State {
            threads,
            count: 2,
            released: [0; 2],
            freed: false,
            unwrapped: 0,
        }
    }

    /// Returns what the thread does: its next call, or a drop if only pointers are left, or nothing if none is.
    fn call(&self, me: usize) -> Option<Call> {
        let thread = &self.threads[me];
        let goes_on = thread.pointers > 0 || thread.step != Step::Begin;
        goes_on.then(|| thread.calls.first().copied().unwrap_or(Call::Drop))
    }

    /// Does one step of a thread. Each step uses the block: its count, its value or its memory. Returns whether there was
    /// a block to use.
    fn step(&mut self, me: usize, call: Call, form: Form, faults: &mut BTreeSet<Fault>) -> bool {
        let step = self.threads[me].step;
        if self.freed {
            faults.insert(if step == Step::Free {
                Fault::FreedTwice
            } else {
                Fault::UsedAfterFree
            });
            return false;
        }
        self.threads[me].knows[me] += 1;
        let next = match (call, step) {
            (_, Step::Free) => self.free(me, faults),
            (_, Step::Fence(told)) => self.acquire(me, told),
            (Call::Clone, _) => self.clone_pointer(me, step, form),
            (Call::Read, _) => Step::Begin,
            (Call::Unwrap, _) => self.unwrap_pointer(me, step, form, faults),
            (Call::Drop, _) => self.drop_pointer(me, step, form),
        };
        let thread = &mut self.threads[me];
        thread.step = next;
        if next == Step::Begin && !thread.calls.is_empty() {
            thread.calls.remove(0);
        }
        true
    }

    fn acquire(&mut self, me: usize, told: Clock) -> Step {
        join(&mut self.threads[me].knows, told);
        Step::Free
    }

    fn free(&mut self, me: usize, faults: &mut BTreeSet<Fault>) -> Step {
        let other = 1 - me;
        if self.threads[me].knows[other] < self.threads[other].knows[other] {
            faults.insert(Fault::Race);
        }
        self.freed = true;
        Step::Begin
    }

    /// `fetch_add(1, Relaxed)`
    fn clone_pointer(&mut self, me: usize, step: Step, form: Form) -> Step {
        self.count = match step {
            Step::Begin if form == Form::CloneLoadsThenStores => return Step::Store(self.count),
            Step::Store(loaded) => loaded + 1,
            _ => self.count + 1,
        };
        self.threads[me].pointers += 1;
        Step::Begin
    }

    /// `fetch_sub(1, Release)`, and after the last pointer `fence(Acquire)`. Then the block is freed.
    fn drop_pointer(&mut self, me: usize, step: Step, form: Form) -> Step {
        let told = self.released;
        let before = match step {
            Step::Begin if form == Form::DropLoadsThenStores => return Step::Store(self.count),
            Step::Test => self.count + 1,
            Step::Store(loaded) => loaded,
            _ => self.count,
        };
        if step != Step::Test {
            self.threads[me].pointers -= 1;
            self.count = before.saturating_sub(1);
            if form != Form::DropWithoutRelease {
                join(&mut self.released, self.threads[me].knows);
            }
        }
        match before {
            _ if form == Form::DropTestsAfterwards && step != Step::Test => Step::Test,
            1 if form == Form::DropWithoutFence => Step::Free,
            1 => Step::Fence(told),
            _ => Step::Begin,
        }
    }

    /// `compare_exchange(1, 0, Acquire, Relaxed)`. If the count was 1, the value is taken and the block is freed.
    fn unwrap_pointer(
        &mut self,
        me: usize,
        step: Step,
        form: Form,
        faults: &mut BTreeSet<Fault>,
    ) -> Step {
        if step == Step::CountUp {
            self.count += 1;
            return Step::Begin;
        }
        if self.count != 1 && form == Form::UnwrapCountsDownThenUp {
            self.count -= 1;
            return Step::CountUp;
        }
        if self.count != 1 && form != Form::UnwrapIgnoresOthers {
            return Step::Begin;
        }
        self.count = 0;
        self.threads[me].pointers -= 1;
        self.unwrapped += 1;
        if self.unwrapped > 1 {
            faults.insert(Fault::UnwrappedTwice);
        }
        let told = if form == Form::UnwrapWithoutAcquire {
            [0; 2]
        } else {
            self.released
        };
        self.acquire(me, told)
    }

    /// Visits every interleaving from this state on. (What follows a state that was visited was visited with it.)
    fn visit(self, form: Form, visited: &mut HashSet<State>, faults: &mut BTreeSet<Fault>) {
        if visited.contains(&self) {
            return;
        }
        let calls = [self.call(0), self.call(1)];
        if calls == [None; 2] && !self.freed {
            faults.insert(Fault::NeverFreed);
        }
        for (me, call) in calls.into_iter().enumerate() {
            let mut next = self.clone();
            if call.is_some_and(|call| next.step(me, call, form, faults)) {
                next.visit(form, visited, faults);
            }
        }
        visited.insert(self);
    }
}

/// Visits every interleaving of any two programs of so many calls, and returns the number of states and the faults. (A
/// program ends when its thread has no pointer left, and what it has left after its calls it drops, so shorter programs are
/// among them.)
fn visit_all(form: Form, len: u32) -> (usize, BTreeSet<Fault>) {
    let programs = 0..CALLS.len().pow(len);
    let program = |number: usize| {
        (0..len)
            .map(|place| CALLS[number / CALLS.len().pow(place) % CALLS.len()])
            .collect()
    };
    let (mut states, mut faults) = (0, BTreeSet::new());
    for first in programs.clone() {
        for second in programs.clone() {
            let mut visited = HashSet::new();
            State::new([program(first), program(second)]).visit(form, &mut visited, &mut faults);
            states += visited.len();
        }
    }
    (states, faults)
}

#[test]
fn every_interleaving_frees_the_block_once() {
    let (states, faults) = visit_all(Form::Written, 3);
    println!("{states} states");
    assert!(
        faults.is_empty() && states > 100_000,
        "{faults:?} in {states} states"
    );
}

#[test]
fn each_mistake_is_found() {
    let mistakes = [
        (Form::CloneLoadsThenStores, Fault::UsedAfterFree),
        (Form::DropLoadsThenStores, Fault::NeverFreed),
        (Form::DropTestsAfterwards, Fault::FreedTwice),
        (Form::DropWithoutRelease, Fault::Race),
        (Form::DropWithoutFence, Fault::Race),
        (Form::UnwrapCountsDownThenUp, Fault::UsedAfterFree),
        (Form::UnwrapWithoutAcquire, Fault::Race),
        (Form::UnwrapIgnoresOthers, Fault::UnwrappedTwice),
    ];
    for (form, fault) in mistakes {
        let (_, faults) = visit_all(form, 2);
        assert!(
            faults.contains(&fault),
            "{form:?}: found {faults:?}, and not {fault:?}"
        );
    }
}
