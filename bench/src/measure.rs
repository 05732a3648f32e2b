//! Times: the tasks of a group alternate over rounds; of each call the median of the rounds, then the mean of the calls.
use crate::plan::{Group, Task};
use crate::probe::Timer;
use std::time::{Duration, Instant};

/// The least number of rounds, and the least time that they take together.
pub const ROUNDS: usize = 15;
pub const TIME: Duration = Duration::from_millis(800);

fn timed(task: &Task) -> Vec<u64> {
    let mut timer = Timer::default();
    (task.work)(&mut timer);
    timer.times
}

fn median(mut times: Vec<u64>) -> u64 {
    times.sort_unstable();
    times[times.len() / 2]
}

/// The mean over the calls of each call's median over the rounds.
fn mean_of_medians(rounds: &[Vec<u64>]) -> f64 {
    let calls = rounds[0].len();
    let medians = (0..calls).map(|call| median(rounds.iter().map(|times| times[call]).collect()));
    medians.sum::<u64>() as f64 / calls as f64
}

/// Measures the tasks of a group; each round begins with another task. One round before them is not counted.
pub fn measure(group: &mut Group) {
    let count = group.tasks.len();
    let mut times: Vec<Vec<Vec<u64>>> = vec![Vec::new(); count];
    group.tasks.iter().for_each(|task| drop(timed(task)));
    let start = Instant::now();
    let mut round = 0;
    while round < ROUNDS || start.elapsed() < TIME {
        for turn in 0..count {
            let task = (round + turn) % count;
            times[task].push(timed(&group.tasks[task]));
        }
        round += 1;
    }
    for (task, times) in group.tasks.iter_mut().zip(&times) {
        task.nanoseconds = mean_of_medians(times);
    }
}
