//! Compares Shootspiral with the model over many seeds, and prints the shortest list of calls it
//! can find if they differ; or runs lists with their answers through both. The exit status is 0
//! where all agree, 1 where something differs, a fault is not found, a row of the tables was not
//! reached, or a list cannot be read.

use std::env;
use std::fs;
use std::process::ExitCode;
use std::sync::mpsc;
use std::thread;
use std::time::{Duration, Instant};

use shootspiral_check::explore::{Counts, Found, search};
use shootspiral_check::fault::{Fault, Faulty};
use shootspiral_check::recorded::List;
use shootspiral_check::replay::{Tally, replay};
use shootspiral_check::{Calls, Linked};

const USAGE: &str = "\
shootspiral-check [SEEDS [CALLS [FIRST]]] [OPTION...]
shootspiral-check replay FILE...

  SEEDS   how many lists of calls to compare (100)
  CALLS   how many calls each has (300); those that begin with every process live have more
  FIRST   the seed of the first (1)

  --long      5000 seeds of 400 calls: two million calls
  --reached   print how often the lists came to each check of each call, to pairs of checks
              that both hold and to each kind of what is read; fail where they never did
  --fault N   compare a wrong host with the model, which has fault N and is then found
  --faults    find every fault
  --help      this text, and the faults

  FILE    a list of calls with their answers, as tests/linux has them; the first line that library
          and model do not both answer so is printed";

/// That a fault is found matters more than how shortly.
const PATIENCE: Duration = Duration::from_millis(300);

/// What the command line asks for. Faults are counted from 1.
struct Task {
    seeds: u64,
    calls: usize,
    first: u64,
    reached: bool,
    faults: Vec<usize>,
}

fn main() -> ExitCode {
    let words: Vec<String> = env::args().skip(1).collect();
    if words.iter().any(|word| word == "--help") {
        println!("{USAGE}\n");
        for (fault, number) in Fault::ALL.iter().zip(1..) {
            println!("  fault {number:3}  {fault}");
        }
        return ExitCode::SUCCESS;
    }
    if let Some((first, files)) = words.split_first()
        && first == "replay"
        && !files.is_empty()
    {
        return status(replay_all(files));
    }
    let Some(task) = parse(&words) else {
        eprintln!("{USAGE}");
        return ExitCode::from(2);
    };
    status(if task.faults.is_empty() { compare(&task) } else { find(&task) })
}

fn status(passed: bool) -> ExitCode {
    if passed { ExitCode::SUCCESS } else { ExitCode::from(1) }
}

fn parse(words: &[String]) -> Option<Task> {
    let mut task = Task { seeds: 100, calls: 300, first: 1, reached: false, faults: vec![] };
    let mut place = 0;
    let mut words = words.iter();
    while let Some(word) = words.next() {
        match word.as_str() {
            "--long" => (task.seeds, task.calls) = (5_000, 400),
            "--reached" => task.reached = true,
            "--faults" => task.faults = (1..=Fault::ALL.len()).collect(),
            "--fault" => {
                let number: usize = words.next()?.parse().ok()?;
                task.faults = vec![number];
                Fault::ALL.get(number.checked_sub(1)?)?;
            }
            word => {
                let number: u64 = word.parse().ok()?;
                match place {
                    0 => task.seeds = number,
                    1 => task.calls = usize::try_from(number).ok()?,
                    2 => task.first = number,
                    _ => return None,
                }
                place += 1;
            }
        }
    }
    Some(task)
}

impl Task {
    fn search<H: Calls>(&self, fresh: impl Fn(u64) -> H, counts: &mut Counts) -> Option<Found> {
        let seeds = self.first..self.first.saturating_add(self.seeds);
        search(seeds, self.calls, fresh, counts)
    }
}

/// Compares all lists. Answers whether all are alike, and every row reached if that is asked.
fn compare(task: &Task) -> bool {
    let start = Instant::now();
    let mut counts = Counts::new();
    if let Some(found) = task.search(Linked::fresh, &mut counts) {
        print!("{}{}", report(&found, counts.all()), shorter(&found.shortest(Linked::fresh)));
        return false;
    }
    let (calls, refused) = (counts.all(), counts.refused());
    let seconds = start.elapsed().as_secs_f64();
    println!(
        "{} seeds from {}, the crossed list, the heap and the full tree",
        task.seeds, task.first
    );
    println!("{calls} calls, {refused} refused");
    println!("all alike, {seconds:.1} s, {:.2} s for 100,000 calls", seconds * 1e5 / calls as f64);
    if !task.reached {
        return true;
    }
    print!("{counts}");
    let missing = counts.missing();
    if !missing.is_empty() {
        println!("never reached, or reached though the table says never:");
    }
    for row in &missing {
        println!("    {row}");
    }
    missing.is_empty()
}

/// Runs lists. Answers whether library and model both answer as all of them do.
fn replay_all(files: &[String]) -> bool {
    let mut all = Tally::default();
    let mut alike = 0;
    for file in files {
        match replay_file(file) {
            Ok(tally) => {
                println!("{file}: {tally}");
                all += tally;
                alike += 1;
            }
            Err(why) => println!("{file}: {why}"),
        }
    }
    println!("{alike} of {} lists answered alike: {all}", files.len());
    alike == files.len()
}

/// Runs a list, and says what is wrong with the first line that is not as it should be.
fn replay_file(file: &str) -> Result<Tally, String> {
    let text = fs::read_to_string(file).map_err(|error| error.to_string())?;
    let list = List::parse(&text).map_err(|error| error.to_string())?;
    replay(&list, Linked::fresh).map_err(|mismatch| mismatch.to_string())
}

/// Looks for faults, on every core at once, and prints them in their order. Answers whether all are
/// found.
fn find(task: &Task) -> bool {
    let cores = thread::available_parallelism().map_or(1, usize::from);
    let mut missed = 0;
    thread::scope(|scope| {
        let looking = |first: usize| {
            let (sender, receiver) = mpsc::channel();
            scope.spawn(move || {
                for &number in task.faults.iter().skip(first).step_by(cores) {
                    sender.send(find_one(task, number)).expect("all are waited for");
                }
            });
            receiver
        };
        let results: Vec<_> = (0..cores).map(looking).collect();
        for place in 0..task.faults.len() {
            let (text, is_found) = results[place % cores].recv().expect("all are looked for");
            print!("{text}");
            missed += usize::from(!is_found);
        }
    });
    if task.faults.len() > 1 {
        println!("{} of {} faults found", task.faults.len() - missed, task.faults.len());
    }
    missed == 0
}

/// Looks for a fault. Answers what to print, and whether it is found.
fn find_one(task: &Task, number: usize) -> (String, bool) {
    let fault = Fault::ALL[number - 1];
    let mut counts = Counts::new();
    let wrong = |machine| Faulty::new(machine, fault);
    let head = format!("fault {number}: {fault}\n");
    match task.search(wrong, &mut counts) {
        Some(found) => {
            let told = head + &report(&found, counts.all());
            (told + &shorter(&found.shortest_within(PATIENCE, wrong)), true)
        }
        None => (head + &format!("not found in {} calls\n\n", counts.all()), false),
    }
}

fn report(found: &Found, calls: u64) -> String {
    format!(
        "{} differs after {} of its calls\n({calls} calls in all)\n",
        found.name,
        found.calls.len()
    )
}

fn shorter(found: &Found) -> String {
    format!(
        "shortest list found, {} calls:\n\n{}\nat the last call, {}\n\n",
        found.calls.len(),
        found.as_test(),
        found.difference
    )
}
