//! How the calls are timed: in turns, so that a machine that is busy for a while slows all of them.

use std::time::Duration;

/// The C library's, on 64-bit Linux.
#[repr(C)]
struct Timespec {
    seconds: i64,
    nanoseconds: i64,
}

extern "C" {
    fn clock_gettime(clock: i32, time: &mut Timespec) -> i32;
}

/// What this thread has used of the processor so far: other work on the machine does not count in it.
fn used() -> Duration {
    const THREAD_CPUTIME: i32 = 3;
    let mut time = Timespec { seconds: 0, nanoseconds: 0 };
    // SAFETY: the place is a live one of the form that the call fills.
    assert_eq!(unsafe { clock_gettime(THREAD_CPUTIME, &mut time) }, 0, "every thread has such a clock");
    Duration::new(time.seconds as u64, time.nanoseconds as u32)
}

/// How many rounds there are, how long a call's part of a round lasts at least, and how many arms or members a made model has at
/// most.
pub struct Plan {
    pub rounds: usize,
    pub sample: Duration,
    pub most: usize,
}

impl Plan {
    pub fn new(quick: bool) -> Plan {
        match quick {
            true => Plan { rounds: 3, sample: Duration::from_millis(4), most: 10_000 },
            false => Plan { rounds: 9, sample: Duration::from_millis(30), most: 100_000 },
        }
    }

    /// For each call the median over the rounds of its nanoseconds. Each has run once before, so its memory is warm.
    pub fn in_turns(&self, calls: &mut [&mut dyn FnMut()]) -> Vec<f64> {
        let turns: Vec<u32> = calls.iter_mut().map(|call| self.turns(call)).collect();
        let mut times = vec![Vec::new(); calls.len()];
        for _ in 0..self.rounds {
            for (place, call) in calls.iter_mut().enumerate() {
                times[place].push(timed(turns[place], call).as_nanos() as f64 / f64::from(turns[place]));
            }
        }
        times.into_iter().map(median).collect()
    }

    /// How many calls fill a sample.
    fn turns(&self, call: &mut dyn FnMut()) -> u32 {
        call();
        let mut turns = 1;
        loop {
            let taken = timed(turns, call);
            if self.sample / 4 <= taken {
                return turns * self.sample.div_duration_f64(taken).ceil() as u32;
            }
            turns *= 2;
        }
    }
}

fn timed(turns: u32, call: &mut dyn FnMut()) -> Duration {
    let start = used();
    for _ in 0..turns {
        call();
    }
    used() - start
}

fn median(mut times: Vec<f64>) -> f64 {
    times.sort_by(f64::total_cmp);
    times[times.len() / 2]
}
