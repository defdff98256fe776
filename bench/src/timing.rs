//! Times: the shortest of many runs, in which the contenders take turns.

use std::time::Duration;

/// A run repeats its task until it takes at least this long.
const LEAST_RUN: Duration = Duration::from_micros(100);

/// The runs of a task go on for at least this long, even if the least number of runs takes less.
const TASK: Duration = Duration::from_millis(60);

/// The least nanoseconds that each contender takes for its task, in at least `runs` runs. `runner` lets the contender
/// with this number, counted from 0, do its task that many times.
pub fn least(contenders: usize, runs: usize, runner: &mut dyn FnMut(usize, u32)) -> Vec<f64> {
    let start = processor_time();
    // What finds the numbers of repeats is the first run.
    let (repeats, mut least): (Vec<u32>, Vec<f64>) = (0..contenders).map(|k| repeats(runner, k)).unzip();
    let mut done = 1;
    while done < runs || processor_time() - start < TASK {
        for k in turn(done, contenders) {
            let time = run(runner, k, repeats[k]).as_secs_f64() * 1e9;
            // On a virtual machine the clock may stand still for a while.
            if time > 0.0 {
                least[k] = least[k].min(time / f64::from(repeats[k]));
            }
        }
        done += 1;
    }
    least
}

/// The order of `len` contenders in a round. Each contender in turn comes first, and every other round goes backwards,
/// so that each comes after each other one. This spreads the effect of what the previous contender left in the caches
/// evenly.
fn turn(round: usize, len: usize) -> impl Iterator<Item = usize> {
    let step = if round.is_multiple_of(2) { 1 } else { len - 1 };
    (0..len).map(move |i| (round / 2 + i * step) % len)
}

/// How often a contender repeats its task in one run, and the nanoseconds that the task takes in such a run.
fn repeats(runner: &mut dyn FnMut(usize, u32), contender: usize) -> (u32, f64) {
    let mut repeats = 1;
    loop {
        let time = run(runner, contender, repeats);
        if time >= LEAST_RUN {
            return (repeats, time.as_secs_f64() * 1e9 / f64::from(repeats));
        }
        repeats *= 2;
    }
}

fn run(runner: &mut dyn FnMut(usize, u32), contender: usize, repeats: u32) -> Duration {
    let start = processor_time();
    runner(contender, repeats);
    processor_time() - start
}

#[repr(C)]
#[derive(Default)]
struct TimeSpec {
    seconds: i64,
    nanoseconds: i64,
}

unsafe extern "C" {
    fn clock_gettime(clock: i32, time: *mut TimeSpec) -> i32;
}

/// The processor time of this thread, so that the time of other programs does not count. With several threads it is the
/// time of a clock.
fn processor_time() -> Duration {
    const CLOCK: i32 = if cfg!(parallel) { 1 } else { 3 };
    let mut time = TimeSpec::default();
    // SAFETY: the C library fills the struct, whose layout is that of a `timespec` on 64-bit Linux.
    let status = unsafe { clock_gettime(CLOCK, &mut time) };
    assert_eq!(status, 0, "there is no such clock");
    Duration::new(time.seconds as u64, time.nanoseconds as u32)
}
