// SPDX-License-Identifier: Apache-2.0
// SPDX-FileCopyrightText: Copyright the Vortex contributors

//! The clock by which the program measures.

use nix::time::{ClockId, clock_gettime};

/// The processor time of this thread in nanoseconds.
pub fn thread_cpu_time() -> u64 {
    let time = clock_gettime(ClockId::CLOCK_THREAD_CPUTIME_ID).expect("a clock for a thread");
    let parts = [time.tv_sec(), time.tv_nsec()].map(|part| u64::try_from(part).unwrap_or_default());
    parts[0] * 1_000_000_000 + parts[1]
}
