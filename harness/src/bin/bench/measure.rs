//! The time of a call, and its instructions as callgrind counts them.

use crate::cases::Case;
use crate::sides::{repeated_calls, Call, Changes, Side};
use harness::service;
use std::env;
use std::error::Error;
use std::fs;
use std::path::PathBuf;
use std::process::{self, Child, Command, Stdio};
use std::time::Instant;

/// How often both sides are timed.
pub const ROUNDS: usize = 7;

/// The calls that are timed as one, and how many times fewer are made before. Of those that go through a
/// whole saved service fewer are timed.
const TIMED: u32 = 50_000;
const TIMED_WHOLE: u32 = 2_000;
const WARMING: u32 = 10;

/// The calls of the loops under callgrind, for each case. The difference of the last two gives the
/// instructions of a call with its part of the loop; what is done before them, or once, is counted
/// with the first.
const FEW: u32 = 20;
const MANY: u32 = 120;
const LOOPS: [u32; 3] = [FEW, FEW, MANY];

/// The loop, as callgrind's options name it.
const LOOP: &str = "*repeated_calls*";

/// The argument at which this program makes the calls that callgrind counts.
pub const COUNT: &str = "count";

/// A figure of each side.
#[derive(Clone, Copy)]
pub struct Both {
    /// The library's.
    pub library: f64,
    /// The second implementation's.
    pub second: f64,
}

impl Both {
    /// What is left of both when so much is taken off.
    pub fn less(self, other: Both) -> Both {
        Both { library: self.library - other.library, second: self.second - other.second }
    }

    /// The library's over the second implementation's.
    pub fn ratio(self) -> f64 {
        self.library / self.second
    }
}

/// How many calls are timed as one.
fn timed(call: &Call) -> u32 {
    match call {
        Call::Save(_) | Call::Load(_) => TIMED_WHOLE,
        _ => TIMED,
    }
}

/// The nanoseconds of a call and the loop around it.
fn with_loop<S: Side>(side: &mut S, call: &Call) -> f64 {
    let start = Instant::now();
    repeated_calls(side, call, timed(call));
    start.elapsed().as_nanos() as f64 / f64::from(timed(call))
}

/// The nanoseconds of a call. The loop that puts a whole ledger back takes as long as a call, and is
/// taken off; any other loop is not.
fn nanoseconds<S: Side>(side: &mut S, call: &Call) -> f64 {
    match call {
        Call::Clear(_) => with_loop(side, call) - with_loop(side, &Call::Nothing(Changes::Ledger)),
        _ => with_loop(side, call),
    }
}

/// The nanoseconds of both sides, round by round, each side first in turn.
pub fn times(case: &mut Case) -> [Both; ROUNDS] {
    let Case { pair, call, .. } = case;
    repeated_calls(&mut pair.library, call, timed(call) / WARMING);
    repeated_calls(&mut pair.second, call, timed(call) / WARMING);
    std::array::from_fn(|round| {
        if round % 2 == 0 {
            let library = nanoseconds(&mut pair.library, call);
            Both { library, second: nanoseconds(&mut pair.second, call) }
        } else {
            let second = nanoseconds(&mut pair.second, call);
            Both { library: nanoseconds(&mut pair.library, call), second }
        }
    })
}

/// Makes a case's calls that callgrind counts, of the side with this name.
pub fn make_counted(case: &mut Case, side: &str) {
    for calls in LOOPS {
        repeat(case, side, calls);
    }
}

/// Makes a case's call so many times, of the side with this name.
pub fn repeat(case: &mut Case, side: &str, calls: u32) {
    let Case { pair, call, .. } = case;
    if side == tickets::Service::NAME {
        repeated_calls(&mut pair.library, call, calls);
    } else {
        assert_eq!(side, service::Service::NAME);
        repeated_calls(&mut pair.second, call, calls);
    }
}

/// A run of this program under callgrind, and the file with its counts.
struct Run {
    child: Child,
    counts: PathBuf,
}

impl Run {
    /// Starts the calls of a side. The file gets a part at the end of each loop.
    fn start(side: &str) -> Result<Run, Box<dyn Error>> {
        let counts = env::temp_dir().join(format!("bench-{}-{side}", process::id()));
        let child = Command::new("valgrind")
            .args(["--tool=callgrind", "--combine-dumps=yes"])
            .arg(format!("--dump-after={LOOP}"))
            .arg(format!("--callgrind-out-file={}", counts.display()))
            .arg(env::current_exe()?)
            .args([COUNT, side])
            .stderr(Stdio::piped())
            .spawn()
            .map_err(|error| format!("valgrind does not start: {error}"))?;
        Ok(Run { child, counts })
    }

    /// The instructions of each loop, in their order.
    fn finish(self) -> Result<Vec<f64>, Box<dyn Error>> {
        let output = self.child.wait_with_output()?;
        if !output.status.success() {
            return Err(String::from_utf8_lossy(&output.stderr).into());
        }
        let parts = fs::read_to_string(&self.counts)?;
        fs::remove_file(&self.counts)?;
        let totals = parts.lines().filter_map(|line| line.strip_prefix("summary: "));
        Ok(totals.map(str::parse).collect::<Result<_, _>>()?)
    }
}

/// The instructions of a call and the loop around it, of each case.
fn differences(parts: &[f64]) -> impl Iterator<Item = f64> + '_ {
    parts.chunks_exact(LOOPS.len()).map(|loops| (loops[2] - loops[1]) / f64::from(MANY - FEW))
}

/// The instructions of a call and the loop around it on both sides, of each of so many cases.
pub fn instructions(cases: usize) -> Result<Vec<Both>, Box<dyn Error>> {
    let runs = [Run::start(tickets::Service::NAME)?, Run::start(service::Service::NAME)?];
    let [library, second] = runs.map(Run::finish);
    let (library, second) = (library?, second?);
    let counts = differences(&library).zip(differences(&second));
    let counts: Vec<_> = counts.map(|(library, second)| Both { library, second }).collect();
    if counts.len() == cases {
        Ok(counts)
    } else {
        Err(format!("callgrind counted {} cases of {cases}", counts.len()).into())
    }
}
