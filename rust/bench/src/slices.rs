//! The calls that are timed, a slice of a run at a time.

use std::hint::black_box;

use shootspiral::number::{LAST_GROUP, LONGEST_REPLY};
use shootspiral_bench::work::{
    ABOVE_LONE_LEAF, CHAINS, Charge, FIRST_DEVICE, LONE_LEAF, Layout, ROOM_FOR_GROUPS,
    ROOM_FOR_PROCESSES, Renewed, Run, SPARE_GROUP, SPARE_PROCESS, TIMED_FAMILIES, begin_in,
    charges, end_all, end_chains, families, full_tree, head, lone_column, must, of_chain, owner,
    time, time_apart, time_batch, word,
};
use shootspiral_check::Calls;

/// A run is cut into slices, short enough that most are not interrupted.
pub const SLICES: usize = 50;
const MILLION: usize = 1_000_000;
const SLICE: usize = MILLION / SLICES;

/// How many charges may be outstanding before they are released.
const BATCH: usize = 1_000;

/// How often other calls are made in a slice, those that pass over the tree, and the longest reply.
const ROUNDS: u64 = 4_000;
const LONG_ROUNDS: u64 = 400;
const LONGEST_ROUNDS: u64 = 100;

/// What io.max of the crowded leaf reads.
pub const FOUR_DEVICES: &[u8] = b"\
8:0 rbps=2097152 wbps=1048576 riops=2400 wiops=120
8:16 rbps=2097152 wbps=1048576 riops=2400 wiops=120
8:32 rbps=2097152 wbps=1048576 riops=2400 wiops=120
8:48 rbps=2097152 wbps=1048576 riops=2400 wiops=120
";

/// A host with its full tree, one in which a single group holds all processes and a device more, one
/// that has ended, a lone column, families, an empty tree for chains, and memory for a fresh tree and
/// for replies.
pub struct Slices<H: Renewed> {
    host: H,
    crowded: H,
    ended: H,
    column: H,
    families: H,
    chains: H,
    memory: H::Memory,
    layout: Layout,
    charges: Vec<Charge>,
    reply: [u8; LONGEST_REPLY],
}

impl<H: Renewed> Slices<H> {
    pub fn new() -> Slices<H> {
        let (host, layout) = full_tree::<H>();
        let mut crowded = host.clone();
        let leaf = layout.leaves[0][0];
        must(crowded.admit(SPARE_PROCESS, 0));
        for process in 1..=SPARE_PROCESS {
            must(crowded.write_procs(0, leaf, process.to_string().as_bytes()));
        }
        must(crowded.write_setting(0, leaf, b"io.max", FIRST_DEVICE));
        let mut ended = host.clone();
        end_all(&mut ended);
        let charges = charges(&layout, MILLION);
        Slices {
            host,
            crowded,
            ended,
            column: lone_column(),
            families: families(),
            chains: H::fresh(0),
            memory: H::room(),
            layout,
            charges,
            reply: [0; LONGEST_REPLY],
        }
    }

    pub fn charges_and_releases(&mut self, slice: usize) -> Run {
        let Slices { host, charges, .. } = self;
        let charges = &charges[slice * SLICE..][..SLICE];
        // Each charge is released a thousand charges later, the last ones of the slice before it.
        for charge in &charges[SLICE - BATCH..] {
            must(host.charge(charge.process, charge.pages, &mut [0; 2]));
        }
        let run = time(SLICE as u64, 2, |place| {
            let mut told = [0; 2];
            let Charge { process, pages, .. } = charges[place as usize];
            let charged = host.charge(process, pages, &mut told);
            let Charge { group, pages, .. } = charges[(place as usize + SLICE - BATCH) % SLICE];
            word(charged, told) ^ u64::from(host.release(group, pages)) << 8
        });
        for charge in &charges[SLICE - BATCH..] {
            must(host.release(charge.group, charge.pages));
        }
        run
    }

    pub fn only_charges(&mut self, slice: usize) -> Run {
        self.batches(slice).0
    }

    pub fn only_releases(&mut self, slice: usize) -> Run {
        self.batches(slice).1
    }

    /// Batch after batch, all its charges and then all its releases.
    fn batches(&mut self, slice: usize) -> (Run, Run) {
        let Slices { host, charges, .. } = self;
        let mut sums = (Run::NONE, Run::NONE);
        for batch in charges[slice * SLICE..][..SLICE].chunks(BATCH) {
            let charged = time(BATCH as u64, 1, |place| {
                let mut told = [0; 2];
                let Charge { process, pages, .. } = batch[place as usize];
                let number = host.charge(process, pages, &mut told);
                word(number, told)
            });
            let released = time(BATCH as u64, 1, |place| {
                let Charge { group, pages, .. } = batch[place as usize];
                u64::from(host.release(group, pages))
            });
            sums = (sums.0.and(charged), sums.1.and(released));
        }
        sums
    }

    pub fn charges_refused(&mut self, _slice: usize) -> Run {
        let Slices { host, layout, .. } = self;
        let leaf = layout.place[1];
        must(host.write_setting(0, leaf, b"memory.max", b"0"));
        let run = time(ROUNDS, 1, |_| {
            let mut told = [0; 2];
            let number = host.charge(1, 1, &mut told);
            word(number, told)
        });
        must(host.write_setting(0, leaf, b"memory.max", b"1099511627776"));
        run
    }

    pub fn make_and_remove(&mut self, _slice: usize) -> Run {
        let Slices { host, layout, .. } = self;
        time(ROUNDS, 2, |_| {
            let removed = host.remove(0, SPARE_GROUP);
            let made = host.make(0, layout.above_spare, SPARE_GROUP);
            u64::from(removed) << 8 | u64::from(made)
        })
        .accepted()
    }

    pub fn only_makes(&mut self, _slice: usize) -> Run {
        self.makes_and_removes()[0]
    }

    pub fn only_removes(&mut self, _slice: usize) -> Run {
        self.makes_and_removes()[1]
    }

    fn makes_and_removes(&mut self) -> [Run; 2] {
        time_apart(&mut self.column, ROUNDS / ROOM_FOR_GROUPS, |column| {
            [make_batch(column), remove_batch(column)]
        })
    }

    pub fn only_removes_with_zombie(&mut self, _slice: usize) -> Run {
        self.removes_and_last_collects()[0]
    }

    pub fn only_last_collects(&mut self, _slice: usize) -> Run {
        self.removes_and_last_collects()[1]
    }

    /// A process ends in every group of a batch, the groups are removed, and their numbers are free
    /// when it is collected.
    fn removes_and_last_collects(&mut self) -> [Run; 2] {
        time_apart(&mut self.column, ROUNDS / ROOM_FOR_GROUPS, |column| {
            make_batch(column);
            for place in 0..ROOM_FOR_GROUPS {
                begin_in(column, 2 + place, LONE_LEAF + 1 + place);
                must(column.exit(2 + place));
            }
            [remove_batch(column), collect_batch(column, ROOM_FOR_GROUPS)]
        })
    }

    pub fn only_collects_of_chains(&mut self, _slice: usize) -> Run {
        let [collects] = time_apart(&mut self.chains, ROUNDS / CHAINS, |chains| {
            end_chains(chains);
            [time_batch(chains, CHAINS, |chains, place| chains.collect(of_chain(place)))]
        });
        collects
    }

    /// To their owners.
    pub fn hand_overs(&mut self, _slice: usize) -> Run {
        let Slices { host, layout, .. } = self;
        time(ROUNDS, 1, |place| {
            let group = place % LAST_GROUP.0 + 1;
            u64::from(host.hand_over(0, group, layout.owner[group as usize]))
        })
        .accepted()
    }

    /// There and back, so that the tree is as it was.
    pub fn moves(&mut self, _slice: usize) -> Run {
        let Slices { host, layout, .. } = self;
        let column = layout.column[1];
        let leaves = &layout.leaves[column as usize];
        let home = layout.place[1];
        let away = *leaves.iter().find(|&&leaf| leaf != home).expect("another leaf");
        time(ROUNDS, 2, |_| {
            let there = host.write_procs(owner(column), away, b"1\n");
            let back = host.write_procs(owner(column), home, b"1\n");
            u64::from(there) << 8 | u64::from(back)
        })
        .accepted()
    }

    /// From leaf to leaf by way of the root.
    pub fn moves_across(&mut self, _slice: usize) -> Run {
        let Slices { host, layout, .. } = self;
        let home = layout.place[1];
        let away = layout.place[2];
        time(ROUNDS, 2, |_| {
            let there = host.write_procs(0, away, b"1\n");
            let back = host.write_procs(0, home, b"1\n");
            u64::from(there) << 8 | u64::from(back)
        })
        .accepted()
    }

    pub fn memory_joins(&mut self, _slice: usize) -> Run {
        self.control_lines(b"+memory", b"-memory")[0]
    }

    pub fn memory_leaves(&mut self, _slice: usize) -> Run {
        self.control_lines(b"+memory", b"-memory")[1]
    }

    pub fn all_join(&mut self, _slice: usize) -> Run {
        self.control_lines(b"+cpu +io +memory +pids", b"-cpu -io -memory -pids")[0]
    }

    pub fn all_leave(&mut self, _slice: usize) -> Run {
        self.control_lines(b"+cpu +io +memory +pids", b"-cpu -io -memory -pids")[1]
    }

    fn control_lines(&mut self, joins: &[u8], leaves: &[u8]) -> [Run; 2] {
        time_apart(&mut self.families, LONG_ROUNDS / TIMED_FAMILIES, |families| {
            [joins, leaves].map(|line| {
                time_batch(families, TIMED_FAMILIES, |families, place| {
                    families.write_subtree_control(0, head(place), line)
                })
            })
        })
    }

    pub fn all_stay(&mut self, _slice: usize) -> Run {
        let Slices { families, .. } = self;
        let line = b"+cpu +io +memory +pids";
        for family in 0..TIMED_FAMILIES {
            must(families.write_subtree_control(0, head(family), line));
        }
        let run = time(ROUNDS, 1, |place| {
            u64::from(families.write_subtree_control(0, head(place % TIMED_FAMILIES), line))
        });
        for family in 0..TIMED_FAMILIES {
            must(families.write_subtree_control(0, head(family), b"-cpu -io -memory -pids"));
        }
        run.accepted()
    }

    /// In the root.
    pub fn admit_exit_and_collect(&mut self, _slice: usize) -> Run {
        let Slices { host, .. } = self;
        time(ROUNDS, 3, |_| {
            let admitted = host.admit(SPARE_PROCESS, 0);
            let ended = host.exit(SPARE_PROCESS);
            let collected = host.collect(SPARE_PROCESS);
            u64::from(admitted) << 16 | u64::from(ended) << 8 | u64::from(collected)
        })
        .accepted()
    }

    pub fn only_admits(&mut self, _slice: usize) -> Run {
        self.admits_exits_and_collects()[0]
    }

    pub fn only_exits(&mut self, _slice: usize) -> Run {
        self.admits_exits_and_collects()[1]
    }

    pub fn only_collects(&mut self, _slice: usize) -> Run {
        self.admits_exits_and_collects()[2]
    }

    fn admits_exits_and_collects(&mut self) -> [Run; 3] {
        time_apart(&mut self.column, ROUNDS / ROOM_FOR_PROCESSES, |column| {
            [
                time_batch(column, ROOM_FOR_PROCESSES, |column, place| column.admit(2 + place, 0)),
                exit_batch(column),
                collect_batch(column, ROOM_FOR_PROCESSES),
            ]
        })
    }

    pub fn fork_exit_and_collect(&mut self, _slice: usize) -> Run {
        let Slices { host, .. } = self;
        time(ROUNDS, 3, |place| {
            let mut told = [0; 2];
            let number = host.fork(place % (SPARE_PROCESS - 1) + 1, SPARE_PROCESS, &mut told);
            let ended = host.exit(SPARE_PROCESS);
            let collected = host.collect(SPARE_PROCESS);
            word(number, told) ^ u64::from(ended) << 8 ^ u64::from(collected) << 24
        })
    }

    pub fn only_forks(&mut self, _slice: usize) -> Run {
        self.forks_exits_and_collects()[0]
    }

    pub fn only_exits_at_depth(&mut self, _slice: usize) -> Run {
        self.forks_exits_and_collects()[1]
    }

    pub fn only_collects_at_depth(&mut self, _slice: usize) -> Run {
        self.forks_exits_and_collects()[2]
    }

    fn forks_exits_and_collects(&mut self) -> [Run; 3] {
        time_apart(&mut self.column, ROUNDS / ROOM_FOR_PROCESSES, |column| {
            [
                time_batch(column, ROOM_FOR_PROCESSES, |column, place| {
                    column.fork(1, 2 + place, &mut [0; 2])
                }),
                exit_batch(column),
                collect_batch(column, ROOM_FOR_PROCESSES),
            ]
        })
    }

    pub fn setting_writes(&mut self, _slice: usize) -> Run {
        let Slices { host, .. } = self;
        time(ROUNDS, 1, |place| {
            let group = place % LAST_GROUP.0 + 1;
            u64::from(host.write_setting(0, group, b"memory.max", b"1099511627776\n"))
        })
        .accepted()
    }

    /// In groups that are never removed, so that the device is there.
    pub fn device_writes(&mut self, _slice: usize) -> Run {
        let Slices { host, .. } = self;
        time(ROUNDS, 1, |place| {
            let group = place % (SPARE_GROUP - 1) + 1;
            u64::from(host.write_setting(0, group, b"io.max", b"8:32 rbps=2097152 wiops=120\n"))
        })
        .accepted()
    }

    /// There and back, so that the tree is as it was.
    pub fn device_comes_and_goes(&mut self, _slice: usize) -> Run {
        let Slices { host, .. } = self;
        time(ROUNDS, 2, |place| {
            let group = place % (SPARE_GROUP - 1) + 1;
            let comes = host.write_setting(0, group, b"io.max", b"8:0 rbps=2097152 wiops=120\n");
            let goes = host.write_setting(0, group, b"io.max", b"8:0 rbps=max wiops=max\n");
            u64::from(comes) << 8 | u64::from(goes)
        })
        .accepted()
    }

    pub fn procs_reads(&mut self, _slice: usize) -> Run {
        let Slices { crowded, layout, reply, .. } = self;
        let leaf = layout.leaves[0][0];
        time(LONGEST_ROUNDS, 1, |_| {
            let mut told = [0; 1];
            let number = crowded.read(leaf, b"cgroup.procs", reply, &mut told);
            word(number, [told[0], u64::from(reply[LONGEST_REPLY - 1])])
        })
    }

    pub fn empty_procs_reads(&mut self, _slice: usize) -> Run {
        let Slices { host, reply, .. } = self;
        time(LONG_ROUNDS, 1, |_| {
            let mut told = [0; 1];
            let number = host.read(SPARE_GROUP, b"cgroup.procs", reply, &mut told);
            word(number, [told[0], 0])
        })
        .accepted()
    }

    pub fn controllers_reads(&mut self, _slice: usize) -> Run {
        self.reads(b"cgroup.controllers")
    }

    pub fn events_reads(&mut self, _slice: usize) -> Run {
        self.reads(b"cgroup.events")
    }

    pub fn usage_reads(&mut self, _slice: usize) -> Run {
        self.reads(b"memory.current")
    }

    /// Of every group in turn.
    fn reads(&mut self, file: &[u8]) -> Run {
        let Slices { host, reply, .. } = self;
        time(ROUNDS, 1, |place| {
            let mut told = [0; 1];
            let number = host.read(place % LAST_GROUP.0 + 1, file, reply, &mut told);
            word(number, [told[0], u64::from(reply[0])])
        })
    }

    pub fn device_reads(&mut self, _slice: usize) -> Run {
        let Slices { crowded, layout, reply, .. } = self;
        let leaf = layout.leaves[0][0];
        let run = time(ROUNDS, 1, |_| {
            let mut told = [0; 1];
            let number = crowded.read(leaf, b"io.max", reply, &mut told);
            word(number, [told[0], u64::from(reply[FOUR_DEVICES.len() - 1])])
        });
        assert!(reply.starts_with(FOUR_DEVICES), "io.max has the four devices");
        run
    }

    pub fn memberships(&mut self, _slice: usize) -> Run {
        let Slices { host, reply, .. } = self;
        time(ROUNDS, 1, |place| {
            let mut told = [0; 1];
            let number = host.membership(place % (SPARE_PROCESS - 1) + 1, reply, &mut told);
            word(number, [told[0], u64::from(reply[3])])
        })
    }

    pub fn memberships_of_zombies(&mut self, _slice: usize) -> Run {
        let Slices { ended, reply, .. } = self;
        let run = time(ROUNDS, 1, |place| {
            let mut told = [0; 1];
            let number = ended.membership(place % (SPARE_PROCESS - 1) + 1, reply, &mut told);
            word(number, [told[0], u64::from(reply[3])])
        });
        let mut told = [0; 1];
        must(ended.membership(1, reply, &mut told));
        assert!(reply[..told[0] as usize].ends_with(b" (deleted)\n"), "the group was removed");
        run
    }

    pub fn bad_words(&mut self, _slice: usize) -> Run {
        let Slices { host, .. } = self;
        time(ROUNDS, 1, |_| {
            let mut told = [0; 2];
            host.first_bad_word(b"+cpu -io +memory -pids\n", &mut told);
            word(0, told)
        })
    }

    pub fn fresh_trees(&mut self, _slice: usize) -> Run {
        let Slices { memory, .. } = self;
        time(LONG_ROUNDS, 1, |_| {
            H::renew(black_box(memory));
            0
        })
    }
}

/// The groups beside the leaf of the lone column.
fn make_batch<H: Calls>(column: &mut H) -> Run {
    time_batch(column, ROOM_FOR_GROUPS, |column, place| {
        column.make(0, ABOVE_LONE_LEAF, LONE_LEAF + 1 + place)
    })
}

fn remove_batch<H: Calls>(column: &mut H) -> Run {
    time_batch(column, ROOM_FOR_GROUPS, |column, place| column.remove(0, LONE_LEAF + 1 + place))
}

/// The processes beside process 1.
fn exit_batch<H: Calls>(column: &mut H) -> Run {
    time_batch(column, ROOM_FOR_PROCESSES, |column, place| column.exit(2 + place))
}

/// So many of those that ended.
fn collect_batch<H: Calls>(column: &mut H, count: u64) -> Run {
    time_batch(column, count, |column, place| column.collect(2 + place))
}
