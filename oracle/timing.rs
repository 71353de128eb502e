// Times of two sides, taken in turns.
const ROUNDS: usize = 101;
const ROUND: f64 = 1e6; // nanoseconds

unsafe extern "C" {
    fn clock_gettime(clock: i32, time: *mut [i64; 2]) -> i32;
}

// The processor's time of this thread, in nanoseconds: what else the machine does is not counted.
fn now() -> f64 {
    const CLOCK_THREAD_CPUTIME_ID: i32 = 3;
    let mut time = [0; 2];
    assert_eq!(unsafe { clock_gettime(CLOCK_THREAD_CPUTIME_ID, &mut time) }, 0);
    time[0] as f64 * 1e9 + time[1] as f64
}

// Nanoseconds of one run, over so many turns.
fn timed(turns: u32, run: &mut impl FnMut()) -> f64 {
    let start = now();
    (0..turns).for_each(|_| run());
    (now() - start) / f64::from(turns)
}

fn median(mut times: Vec<f64>) -> f64 {
    times.sort_by(f64::total_cmp);
    times[times.len() / 2]
}

// Nanoseconds of one run of each side: the median of many rounds that take turns.
pub fn medians(mut one: impl FnMut(), mut other: impl FnMut()) -> [f64; 2] {
    let turns = |once: f64| (ROUND / once).ceil() as u32;
    let first = turns(timed(4, &mut one));
    let second = turns(timed(4, &mut other));
    let mut times = [Vec::new(), Vec::new()];
    for _ in 0..ROUNDS {
        times[0].push(timed(first, &mut one));
        times[1].push(timed(second, &mut other));
    }
    times.map(median)
}
