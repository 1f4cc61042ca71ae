//! Sends cases to the driver and compares what comes back, both at the same time.

use super::case::{Case, Placing};
use super::report::Report;
use std::io::{BufReader, Read, Write};
use std::process::{Child, Command, Stdio};
use std::sync::mpsc::{sync_channel, SyncSender};
use std::sync::Mutex;
use std::thread;

/// Cases that go to the driver in one piece.
const BATCH: usize = 256;

/// Batches that may wait for their outcomes.
const WAITING: usize = 8;

/// Shares of a generator's cases. The number is fixed, so that a seed gives the same cases on every machine.
const SHARES: usize = 16;

/// Cases one after another, or a line that ends the run.
pub type Cases = Box<dyn Iterator<Item = Result<Case, String>> + Send>;

/// The cases of a generator, which takes a seed and a count, in shares.
pub fn shared<C>(seed: u64, count: usize, cases: impl Fn(u64, usize) -> C) -> Vec<Cases>
where
    C: Iterator<Item = Case> + Send + 'static,
{
    let part = |share: usize| count / SHARES + usize::from(share < count % SHARES);
    (0..SHARES).map(|share| boxed(cases(seed.wrapping_add(share as u64), part(share)))).collect()
}

/// Cases of which none ends the run.
pub fn boxed(cases: impl Iterator<Item = Case> + Send + 'static) -> Cases {
    Box::new(cases.map(Ok))
}

/// Compares shares of cases side by side, each with a driver of its own.
pub fn compare(command: &[String], shares: Vec<Cases>) -> Result<Report, String> {
    side_by_side(shares, |cases| compare_share(command, cases))
}

/// Compares shares of any kind, as many at once as there are cores. Where several fail, the first of them tells.
pub fn side_by_side<S: Send>(
    shares: Vec<S>,
    compared: impl Fn(S) -> Result<Report, String> + Sync,
) -> Result<Report, String> {
    let workers = thread::available_parallelism().map_or(1, usize::from).min(shares.len());
    let waiting = Mutex::new(shares.into_iter().enumerate());
    let next = || waiting.lock().expect("nobody fails while holding the shares").next();
    let work = || {
        let mut done = Vec::new();
        while let Some((place, share)) = next() {
            let report = compared(share);
            if report.as_ref().map_or(true, Report::differs) {
                // Nobody takes another share.
                while next().is_some() {}
            }
            done.push((place, report));
        }
        done
    };
    let mut done: Vec<_> = thread::scope(|scope| {
        let workers: Vec<_> = (0..workers).map(|_| scope.spawn(work)).collect();
        workers.into_iter().flat_map(|worker| worker.join().expect("a worker gives reports or a line")).collect()
    });
    done.sort_by_key(|(place, _)| *place);
    let mut sum = Report::default();
    for (_, report) in done {
        sum.add(report?);
    }
    Ok(sum)
}

/// Compares every outcome of the driver with the right one.
fn compare_share(command: &[String], cases: Cases) -> Result<Report, String> {
    let mut driver = start(command)?;
    let input = driver.stdin.take().expect("a pipe was asked for");
    let output = BufReader::with_capacity(1 << 16, driver.stdout.take().expect("a pipe was asked for"));
    let (sender, batches) = sync_channel(WAITING);
    let (fed, report) = thread::scope(|scope| {
        let feeder = scope.spawn(move || feed(cases, input, sender));
        let report = collect(batches, output);
        (feeder.join().unwrap_or_else(|_| Err("compare: a case could not be made".to_string())), report)
    });
    fed?;
    let status = driver.wait().map_err(|error| format!("compare: the driver cannot be waited for: {error}"))?;
    match report {
        Err(case) => Err(format!("compare: the driver stopped ({status}) at {case}")),
        Ok(_) if !status.success() => Err(format!("compare: the driver ended with {status}")),
        Ok(report) => Ok(report),
    }
}

/// Starts a program with pipes on both sides.
pub fn start(command: &[String]) -> Result<Child, String> {
    let child = Command::new(&command[0]).args(&command[1..]).stdin(Stdio::piped()).stdout(Stdio::piped()).spawn();
    child.map_err(|error| format!("compare: {} does not start: {error}", command[0]))
}

/// A driver that is asked one call at a time.
pub struct Link {
    driver: Child,
    calls: usize,
}

impl Link {
    pub fn start(command: &[String]) -> Result<Link, String> {
        Ok(Link { driver: start(command)?, calls: 0 })
    }

    /// Whether the driver's outcome is the right one; a line where not.
    pub fn confirm(&mut self, case: &Case) -> Result<(), String> {
        let right = case.expected.frame();
        self.calls += 1;
        match self.ask(&case.call.frame(Placing::of(self.calls)), right.len()) {
            Err(_) => Err(format!("the driver stopped at {}", case.call.describe())),
            Ok(got) if got != right => Err(format!("{} at {}", case.difference(&got), case.call.describe())),
            Ok(_) => Ok(()),
        }
    }

    /// The so many bytes that the driver gives for a frame.
    pub fn ask(&mut self, frame: &[u8], length: usize) -> std::io::Result<Vec<u8>> {
        let input = self.driver.stdin.as_mut().expect("a pipe was asked for");
        let output = self.driver.stdout.as_mut().expect("a pipe was asked for");
        let mut got = vec![0; length];
        input.write_all(frame)?;
        output.read_exact(&mut got)?;
        Ok(got)
    }
}

impl Drop for Link {
    /// The driver ends where its input does.
    fn drop(&mut self) {
        drop(self.driver.stdin.take());
        let _its_status_says_nothing_more = self.driver.wait();
    }
}

/// Hands each batch to the comparing side before the driver gets it, so that neither side can wait for the other.
fn feed(mut cases: Cases, mut input: impl Write, sender: SyncSender<Vec<Case>>) -> Result<(), String> {
    loop {
        let batch: Vec<Case> = cases.by_ref().take(BATCH).collect::<Result<_, _>>()?;
        let mut frames = Vec::new();
        batch.iter().enumerate().for_each(|(place, case)| frames.extend(case.call.frame(Placing::of(place))));
        if batch.is_empty() || sender.send(batch).is_err() || input.write_all(&frames).is_err() {
            return Ok(());
        }
    }
}

/// Takes the outcomes in; an error names the case that the driver never answered.
pub fn collect(batches: impl IntoIterator<Item = Vec<Case>>, mut output: impl Read) -> Result<Report, String> {
    let mut report = Report::default();
    for (place, case) in batches.into_iter().flat_map(|batch| batch.into_iter().enumerate()) {
        let right = case.expected.frame();
        let mut got = vec![0; right.len()];
        if output.read_exact(&mut got).is_err() {
            return Err(case.call.describe());
        }
        report.count(&case, Placing::of(place));
        if got != right {
            report.note(&case, &got);
        }
    }
    Ok(report)
}
