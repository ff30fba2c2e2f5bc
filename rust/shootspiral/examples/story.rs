//! Two claims on one machine. The first runs out, its filter does not stop: it tries to get into
//! the next holder's cgroup and at the holder's memory. Each line shows the number that a call
//! answered, as `examples/story.c` does.
//!
//! ```text
//! 0 (1024 pages)
//! ├ 1  claim of user 1001, process 10 (the filter)
//! └ 2  claim of user 1002, process 20 (the holder)
//! ```

use shootspiral::{Denial, GroupId, Host, ProcessId, Refusal, User, file};

const FILTER: (User, ProcessId, GroupId) = (User(1001), ProcessId(10), GroupId(1));
const HOLDER: (User, ProcessId, GroupId) = (User(1002), ProcessId(20), GroupId(2));

fn show(what: &str, answer: Result<(), Refusal>) {
    println!("{:2}  {what}", answer.map_or_else(Refusal::number, |()| 0));
}

fn show_told(what: &str, answer: Result<u64, Denial>) {
    show(what, answer.map(|_| ()).map_err(Refusal::from));
    if let Err(Denial { group: Some(group), consulted, .. }) = answer {
        println!("    cgroup {group} has no room, {consulted} consulted");
    }
}

fn main() -> Result<(), Refusal> {
    let mut host = Host::fresh(1024);
    host.write_subtree_control(User::ROOT, GroupId::ROOT, "+memory +pids")?;
    for (user, process, group) in [FILTER, HOLDER] {
        host.make(User::ROOT, GroupId::ROOT, group)?;
        host.hand_over(User::ROOT, group, user)?;
        host.admit(process, user)?;
        host.write_procs(User::ROOT, group, process.to_string())?;
    }
    let (user, filter, own) = FILTER;
    let (_, holder, other) = HOLDER;
    show_told("the filter works within its claim", host.charge(filter, 60));

    let out = host.write_setting(User::ROOT, own, file::MEMORY_MAX, "0");
    show("the claim runs out: no more pages", out);
    show("and no more processes", host.write_setting(User::ROOT, own, file::PIDS_MAX, "0"));
    show_told("the filter charges one page more", host.charge(filter, 1));
    show_told("it forks", host.fork(filter, ProcessId(11)));
    show("it moves itself into the holder's cgroup", host.write_procs(user, other, "10"));
    show("it pulls the holder over into its own", host.write_procs(user, own, "20"));
    show("it raises its own limit", host.write_setting(user, own, file::MEMORY_MAX, "max"));
    show(
        "it takes the holder's memory away",
        host.write_setting(user, other, file::MEMORY_MAX, "0"),
    );
    show("it makes the holder's cgroup its own", host.hand_over(user, other, user));
    show("it makes a cgroup below the holder's", host.make(user, other, GroupId(3)));

    show_told("the holder saves", host.charge(holder, 500));
    for group in [own, other] {
        let usage = host.read(group, file::MEMORY_CURRENT)?;
        print!("    cgroup {group} uses {}", String::from_utf8_lossy(&usage));
    }
    Ok(())
}
