//! Times the original beside the port, after it has seen that both sum up to the same, and prints the rows of a table.
use std::{env, hint::black_box, time::Duration};

/// How many samples a median is of, if the environment does not say.
const SAMPLES: usize = 21;
/// The rounds of a side are doubled until they take so long, and as long as its set-up.
const LEAST: Duration = Duration::from_millis(2);
const TRIES: usize = 3;

/// The rows of a table.
#[derive(Default)]
pub struct Clock(Vec<Entry>);
struct Entry {
    call: String,
    live: Option<u64>,
    original: Side,
    port: Side,
}
impl Clock {
    /// Both sides run so many rounds of so many calls and give a sum of what was told; `first` rounds are tried first.
    pub fn add(
        &mut self,
        call: impl Into<String>,
        live: Option<u64>,
        calls: usize,
        first: u64,
        original: impl FnMut(u64) -> u64 + 'static,
        port: impl FnMut(u64) -> u64 + 'static,
    ) {
        let call = call.into();
        let mut original = Side::new(calls, first, original);
        let mut port = Side::new(calls, first, port);
        for rounds in [0, 1, 2, first] {
            assert_eq!(
                (original.run)(rounds),
                (port.run)(rounds),
                "{call}, {live:?} live, {rounds} rounds"
            );
        }
        original.find_rounds();
        port.find_rounds();
        self.0.push(Entry {
            call,
            live,
            original,
            port,
        });
    }
    /// Each turn times every row once, so that noise hits all alike.
    pub fn run(mut self) {
        let samples = env::var("SAMPLES").map_or(SAMPLES, |number| {
            number.parse().expect("SAMPLES is a number above 0")
        });
        for _ in 0..samples {
            for entry in &mut self.0 {
                entry.original.sample();
                entry.port.sample();
            }
        }
        println!("| call | live | Rust ns | port ns | port/Rust |");
        println!("|---|---|---|---|---|");
        for entry in self.0 {
            let (original, port) = (entry.original.median(), entry.port.median());
            let (call, live) = (
                entry.call,
                entry.live.map_or(String::new(), |live| live.to_string()),
            );
            let ratio = port / original;
            println!("| {call} | {live} | {original:.1} | {port:.1} | {ratio:.2} |");
        }
    }
}

struct Side {
    calls: f64,
    run: Box<dyn FnMut(u64) -> u64>,
    rounds: u64,
    /// Nanoseconds for one call.
    samples: Vec<f64>,
}
impl Side {
    fn new(calls: usize, rounds: u64, run: impl FnMut(u64) -> u64 + 'static) -> Self {
        Self {
            calls: calls as f64,
            run: Box::new(run),
            rounds,
            samples: Vec::new(),
        }
    }
    fn time(&mut self, rounds: u64) -> Duration {
        let start = processor_time();
        black_box((self.run)(black_box(rounds)));
        processor_time() - start
    }
    fn least(&mut self, rounds: u64) -> Duration {
        let tries = (0..TRIES).map(|_| self.time(rounds));
        tries.min().expect("some tries")
    }
    fn find_rounds(&mut self) {
        let set_up = self.least(0);
        while self.least(self.rounds) < set_up + set_up.max(LEAST) {
            self.rounds *= 2;
        }
    }
    /// A side may have to set something up, so a sample is the difference between twice the rounds and once.
    fn sample(&mut self) {
        let once = self.time(self.rounds).as_nanos() as f64;
        let twice = self.time(2 * self.rounds).as_nanos() as f64;
        let calls = self.calls * self.rounds as f64;
        self.samples.push((twice - once) / calls);
    }
    fn median(mut self) -> f64 {
        self.samples.sort_by(f64::total_cmp);
        self.samples[self.samples.len() / 2]
    }
}

#[repr(C)]
struct Timespec {
    seconds: i64,
    nanoseconds: i64,
}
unsafe extern "C" {
    fn clock_gettime(clock: i32, time: *mut Timespec) -> i32;
}
/// Linux's number of the clock of a thread's processor time.
const THREAD: i32 = 3;
/// What this thread has used, so that what else runs on the machine is not counted.
fn processor_time() -> Duration {
    let mut time = Timespec {
        seconds: 0,
        nanoseconds: 0,
    };
    // SAFETY: the C library's own signature, and the place is valid.
    let failed = unsafe { clock_gettime(THREAD, &mut time) };
    assert_eq!(failed, 0, "a thread's clock");
    Duration::new(time.seconds as u64, time.nanoseconds as u32)
}

/// The rounds one after the other, and the sum of what is told of them.
pub fn rounds(mut round: impl FnMut(u64) -> u64) -> impl FnMut(u64) -> u64 {
    move |rounds| (0..rounds).fold(0, |sum, at| sum.wrapping_add(round(at)))
}
