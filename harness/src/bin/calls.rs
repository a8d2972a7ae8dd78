//! Makes 20,000 calls on the compiled library and the second implementation, and compares them:
//! short enough to be watched by a memory checker (`make valgrind`).

use harness::histories::run;

/// Where the seeds of the histories begin, and how many calls they make at least.
const SEED: u64 = 0x7661_6C67_0000_0000;
const CALLS: u64 = 20_000;

/// Ends with an error where the two differ.
fn main() -> Result<(), String> {
    let tally = run(SEED, CALLS, 0)?;
    println!("{} calls, {} granted: both sides alike", tally.calls, tally.granted);
    Ok(())
}
