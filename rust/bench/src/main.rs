//! Times the proved host beside the plain one: the same calls on the same trees, in turn, many runs
//! each. Prints the medians in ns for a call, and their ratio. Writes no file.

mod slices;

use std::env;

use shootspiral::number::{LAST_GROUP, LAST_PROCESS, LONGEST_REPLY, MAX_DEPTH};
use shootspiral_bench::Plain;
use shootspiral_bench::work::{CHAINS, ROOM_FOR_GROUPS, ROOM_FOR_PROCESSES, Run, TIMED_FAMILIES};
use shootspiral_check::Linked;

use self::slices::{FOUR_DEVICES, SLICES, Slices};

const RUNS: usize = 5;

fn notes() -> String {
    let (groups, consulted) = (LAST_GROUP.0 + 1, MAX_DEPTH + 1);
    format!(
        "\
A tree of {groups} groups, processes at depth {MAX_DEPTH} ({consulted} groups consulted), all controllers on, both
limits and three devices set in every group. Every call of both hosts is out of line, the plain
one's through the same trait. A run is {SLICES} slices, and the hosts take turns slice by slice; the
figures are the median slice and the fastest. Reply buffers are cleared once, before the first run,
and not between calls; trees are not cleared between runs. The hosts' answers are compared: all are
the same.

Other trees: batches of {ROOM_FOR_GROUPS} groups or {ROOM_FOR_PROCESSES} processes come and go in a lone column of depth {MAX_DEPTH}; a control
line goes to {TIMED_FAMILIES} groups below the root in turn, each with two children, and these hold all
processes; the set is empty before controllers join. Membership lines of zombies are those of the full
tree when all processes have ended and all groups are removed. A collect that frees a chain finds {CHAINS}
chains in the tree, one zombie each and no live group. A fresh tree is written over another."
    )
}

fn main() {
    let runs = match env::args().nth(1).map(|word| word.parse()) {
        None => RUNS,
        Some(Ok(runs)) if runs > 0 => runs,
        Some(_) => {
            eprintln!("shootspiral-bench [RUNS]");
            std::process::exit(2);
        }
    };
    println!("{}\n", notes());
    println!("{:48} {:^26}  {:^18}", format!("{runs} runs"), "median", "fastest");
    println!(
        "{:48} {:>9} {:>9} {:>6}  {:>9} {:>9}",
        "ns for a call", "proved", "plain", "ratio", "proved", "plain"
    );
    let mut proved = Slices::<Linked>::new();
    let mut plain = Slices::<Plain>::new();
    for (name, run_proved, run_plain) in rows() {
        let (mut of_proved, mut of_plain) = (vec![], vec![]);
        for number in 0..runs * SLICES {
            let (one, other);
            if number % 2 == 0 {
                one = run_proved(&mut proved, number % SLICES);
                other = run_plain(&mut plain, number % SLICES);
            } else {
                other = run_plain(&mut plain, number % SLICES);
                one = run_proved(&mut proved, number % SLICES);
            }
            assert_eq!(one.digest, other.digest, "{name}: the hosts answer alike");
            of_proved.push(one.ns_per_call());
            of_plain.push(other.ns_per_call());
        }
        let [(one, best_one), (other, best_other)] = [of_proved, of_plain].map(median_and_least);
        let ratio = one / other;
        println!("{name:48} {one:9.1} {other:9.1} {ratio:6.2}  {best_one:9.1} {best_other:9.1}");
    }
}

fn median_and_least(mut figures: Vec<f64>) -> (f64, f64) {
    figures.sort_by(f64::total_cmp);
    let (lower, upper) = (figures[(figures.len() - 1) / 2], figures[figures.len() / 2]);
    ((lower + upper) / 2.0, figures[0])
}

/// A name, and for each host the function that does one slice.
type Row = (String, fn(&mut Slices<Linked>, usize) -> Run, fn(&mut Slices<Plain>, usize) -> Run);

fn rows() -> Vec<Row> {
    macro_rules! row {
        ($name:literal, $method:ident) => {
            (format!($name), Slices::<Linked>::$method, Slices::<Plain>::$method)
        };
    }
    let (processes, devices) = (LAST_PROCESS.0, FOUR_DEVICES.len());
    vec![
        row!("a million charges and a million releases", charges_and_releases),
        row!("  the charges, in batches of 1,000", only_charges),
        row!("  the releases, in batches of 1,000", only_releases),
        row!("charge, refused by the process's own group", charges_refused),
        row!("make, remove", make_and_remove),
        row!("  the makes, in batches of {ROOM_FOR_GROUPS}", only_makes),
        row!("  the removes, in batches of {ROOM_FOR_GROUPS}", only_removes),
        row!("  the removes, in batches, a zombie in each", only_removes_with_zombie),
        row!("hand over", hand_overs),
        row!("move between two leaves, by their owner", moves),
        row!("move between two columns, by user 0", moves_across),
        row!("control line, memory joins", memory_joins),
        row!("control line, memory leaves", memory_leaves),
        row!("control line, all four join", all_join),
        row!("control line, all four leave", all_leave),
        row!("control line, all four are there already", all_stay),
        row!("admit, exit, collect", admit_exit_and_collect),
        row!("  the admits, in batches of {ROOM_FOR_PROCESSES}", only_admits),
        row!("  the exits, in batches of {ROOM_FOR_PROCESSES}", only_exits),
        row!("  the collects, in batches of {ROOM_FOR_PROCESSES}", only_collects),
        row!("fork, exit, collect", fork_exit_and_collect),
        row!("  the forks, in batches of {ROOM_FOR_PROCESSES}", only_forks),
        row!("  the exits, in batches of {ROOM_FOR_PROCESSES}", only_exits_at_depth),
        row!("  the collects, in batches of {ROOM_FOR_PROCESSES}", only_collects_at_depth),
        row!("collect that frees a removed group", only_last_collects),
        row!("collect that frees a chain of {MAX_DEPTH} removed groups", only_collects_of_chains),
        row!("write memory.max, a figure", setting_writes),
        row!("write io.max, two keys of a device that is held", device_writes),
        row!("write io.max, a device before three, and away", device_comes_and_goes),
        row!("read cgroup.procs, {processes} processes, {LONGEST_REPLY} bytes", procs_reads),
        row!("read cgroup.procs, no process", empty_procs_reads),
        row!("read cgroup.controllers", controllers_reads),
        row!("read cgroup.events", events_reads),
        row!("read memory.current", usage_reads),
        row!("read io.max, four devices, {devices} bytes", device_reads),
        row!("membership line at depth {MAX_DEPTH}", memberships),
        row!("membership line of a zombie, group removed", memberships_of_zombies),
        row!("first bad word of a line, none of four", bad_words),
        row!("fresh tree", fresh_trees),
    ]
}
