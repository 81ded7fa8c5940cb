//! `joyce fuzz`: the library beside the model.

use super::args::Args;
use super::out;
#[cfg(not(feature = "standin"))]
use joyce::LIBRARY;
use joyce_host::fuzz;
use joyce_host::machine::Machine;
use std::time::Instant;

/// True if there is no difference.
pub fn run(_: &dyn Machine, args: &Args) -> Result<bool, String> {
    args.expect_words(0, "flags only")?;
    let options = fuzz::Options {
        calls: args.number("--calls", 2_000_000)?,
        seed: args.number("--seed", 1)?,
        first_episode: args.number("--episode", 0)?,
        sweep: args.text("--episode").is_none() && args.text("--fault").is_none(),
        archive_sweep: args.text("--episode").is_none(),
    };
    let machine = under_test(args)?;
    let start = Instant::now();
    let mut next = options.calls / 10;
    let outcome = fuzz::run(machine.as_ref(), &options, |calls| {
        if calls >= next {
            out::note(&format!("{calls} calls, {:.1} s\n", start.elapsed().as_secs_f64()));
            next += (options.calls / 10).max(1);
        }
    });
    match &outcome {
        Ok(passed) => report(passed, options.seed, start.elapsed().as_secs_f64())?,
        Err(failure) => out::write(&failure.to_string())?,
    }
    Ok(outcome.is_ok())
}

fn report(passed: &fuzz::Passed, seed: u64, seconds: f64) -> Result<(), String> {
    let fuzz::Passed { calls, sweep_calls, tally, archives } = passed;
    out::line(&format!(
        "no difference: {calls} calls in lists (seed {seed}), {sweep_calls} in the sweep, {seconds:.1} s"
    ))?;
    out::line(&format!(
        "accepted {}, refused with 1 to 6: {:?}; {} stores made lines dirty, {} refreshes drew, {} NMIs",
        tally.refusals[0],
        &tally.refusals[1..7],
        tally.marking,
        tally.drawing,
        tally.nmi
    ))?;
    let met = |refusal: usize| archives.lists.refusals[refusal] + archives.sweep.refusals[refusal];
    out::line(&format!(
        "archives: {} calls in lists, {} in the sweep; accepted {}, refused with 2, 10, 11, 12: {:?}",
        archives.lists.calls(),
        archives.sweep.calls(),
        met(0),
        [2, 10, 11, 12].map(met)
    ))
}

#[cfg(not(feature = "standin"))]
fn under_test(args: &Args) -> Result<Box<dyn Machine>, String> {
    match args.text("--fault") {
        None => Ok(Box::new(LIBRARY)),
        Some(_) => Err("--fault is for the stand-in (--features standin)".to_string()),
    }
}

#[cfg(feature = "standin")]
fn under_test(args: &Args) -> Result<Box<dyn Machine>, String> {
    use joyce_host::standin::{faults, Faulty};
    let fault = args.number("--fault", 0)?;
    let faults = faults();
    if fault as usize > faults.len() {
        return Err(format!("--fault: there are {} faults", faults.len()));
    }
    if fault > 0 {
        out::line(&format!("fault {fault}: {}", faults[fault as usize - 1]))?;
    }
    Ok(Box::new(Faulty(fault as u8)))
}
