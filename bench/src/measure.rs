//! Measures tasks, which are calls on slices, on integers, on maps or on iterators.

use crate::timing;

/// Something that each of several contenders can do.
pub trait Task {
    fn name(&self) -> &str;

    /// How many items or rows it moves, or how many calls it makes.
    fn units(&self) -> usize;

    /// Those who can do it. The proved code is the first.
    fn contenders(&self) -> Vec<Contender>;

    /// Prepares the task's data, and checks that all contenders compute the same result.
    fn prepare(&self) -> Runner;
}

/// Who makes a call.
#[derive(Clone, Copy, Debug, PartialEq, Eq)]
pub enum Contender {
    /// The package, or with `parallel` on all threads.
    Proved,
    /// `p3-util` 0.8.0.
    Original,
    /// The package's whole call on one thread, if parts or several threads are measured.
    Call,
    /// The package of another checkout.
    Before,
    /// A copy of the same bytes on one thread.
    Copy,
}

/// Lets the contender with this number, counted from 0, do its task that many times.
pub type Runner = Box<dyn FnMut(usize, u32)>;

pub enum Mode {
    /// Takes the time of at least so many runs.
    Time(usize),
    /// Lets each contender do its task once while callgrind counts.
    Count,
}

/// Measures a task and prints a line for each contender.
pub fn measure(task: &impl Task, mode: &Mode) {
    let (contenders, mut runner) = (task.contenders(), task.prepare());
    let line = |contender: Contender| format!("{}\t{}\t{contender:?}", task.name(), task.units());
    match mode {
        Mode::Time(runs) => {
            let took = timing::least(contenders.len(), *runs, &mut *runner);
            for (&contender, took) in contenders.iter().zip(took) {
                println!("{}\t{took}", line(contender));
            }
        }
        Mode::Count => {
            for (number, &contender) in contenders.iter().enumerate() {
                println!("{}", line(contender));
                bench_counted(&mut || runner(number, 1));
            }
        }
    }
}

/// callgrind counts only inside this function.
#[unsafe(no_mangle)]
#[inline(never)]
fn bench_counted(work: &mut dyn FnMut()) {
    work();
}
