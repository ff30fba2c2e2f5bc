//! The faults, one after the other.

use super::Slip::{Instead, Outcome, Reader, Swapped};
use super::{Fault, devices, instead, outcomes, readers, sizes, zombies};
use crate::checks::{
    charge, fork, make, release, remove, write_procs, write_setting, write_subtree_control,
};

const fn fault(text: &'static str, slip: super::Slip) -> Fault {
    Fault { text, slip }
}

pub(super) const FAULTS: &[Fault] = &[
    fault("pages move along with a process", Outcome(outcomes::pages_move)),
    fault("a pids limit stops a move", Outcome(outcomes::limit_stops_move)),
    fault(
        "a move asks source and target, not their common ancestor",
        Outcome(outcomes::ancestor_not_asked),
    ),
    fault("a move asks the root", Outcome(outcomes::walk_from_root)),
    fault(
        "the common ancestor is sought place by place, however deep",
        Outcome(outcomes::unequal_depths),
    ),
    fault(
        "the first group that is not on both chains is asked",
        Outcome(outcomes::first_unequal_pair),
    ),
    fault("a controller that leaves does not reset its settings", Outcome(outcomes::settings_kept)),
    fault("memory.max is rounded up to a page", Outcome(outcomes::rounded_up)),
    fault("less than a page in memory.max is one page", Outcome(outcomes::never_rounded_to_0)),
    fault(
        "the range of memory.max is asked of the rounded figure",
        Instead(instead::range_of_rounded),
    ),
    fault(
        "the group that refuses is not counted as consulted",
        Outcome(outcomes::consulted_one_short),
    ),
    fault("remove drops the group's own pages", Outcome(outcomes::pages_dropped)),
    fault("a number with leading zeros is malformed", Instead(instead::leading_zeros_refused)),
    fault(
        "the first word on a controller counts, not the last",
        Instead(instead::first_word_counts),
    ),
    fault("the byte after a reply's text is overwritten", Reader(readers::byte_after_text)),
    fault("make asks 13 before 17", Swapped(make::NEW_IS_LIVE, make::MAY_NOT_WRITE_PARENT)),
    fault("a group's owner may write its own settings", Instead(instead::owner_sets_limit)),
    fault("a charge refused further up leaves pages behind", Outcome(outcomes::half_charged)),
    fault("number words wrap at 64 bits", Instead(instead::numbers_wrap)),
    fault(
        "a line's newline is not counted in its 128 bytes",
        Instead(instead::newline_not_counted),
    ),
    fault("\"-cpu +cpu\" resets the children's settings", Outcome(outcomes::word_by_word)),
    fault(
        "a buffer that is too short is filled all the same",
        Reader(readers::short_buffer_written),
    ),
    fault(
        "cgroup.events looks at the group's own processes only",
        Reader(readers::only_own_processes),
    ),
    fault(
        "a pids limit below present usage is refused",
        Outcome(outcomes::limit_below_usage_refused),
    ),
    fault("\"-pids\" asks that pids be available", Instead(instead::wanted_any_word)),
    // Numbers in range that are not live.
    fault(
        "release from a number in range that is not live is 22",
        Outcome(outcomes::release_not_live_22),
    ),
    fault("a move to a group that is not live goes to the root", Instead(instead::dead_is_root)),
    // Figures that need more bits than a careless host has.
    fault("memory.current is shown modulo 2^36 bytes", Reader(readers::usage_in_36_bits)),
    fault("memory.current is shown modulo 2^44 bytes", Reader(readers::usage_in_44_bits)),
    fault("charge compares usage modulo 2^36 bytes", Outcome(outcomes::compared_in_36_bits)),
    fault("own pages are kept in 22 bits", Outcome(outcomes::own_pages_in_22_bits)),
    fault("fork counts processes in 8 bits", Outcome(outcomes::population_in_8_bits)),
    fault("fork counts processes in 10 bits", Outcome(outcomes::population_in_10_bits)),
    fault("the root's own pages are kept in 22 bits", Outcome(outcomes::root_pages_in_22_bits)),
    fault(
        "own pages are kept in 22 bits where memory is on nowhere up the chain",
        Outcome(outcomes::own_pages_in_22_bits_where_off),
    ),
    fault("remove passes 2^20 pages on at most", Outcome(outcomes::most_pages_passed_on)),
    fault(
        "a line for cgroup.procs or a setting has its length modulo 2^9",
        Instead(instead::line_length_in_9_bits),
    ),
    fault("a reply's room is taken modulo 4,096", Instead(instead::room_in_12_bits)),
    // Lines and words.
    fault("a second word for pids.max is ignored", Instead(instead::second_word_ignored)),
    fault("the byte before 0 is a digit", Instead(instead::slash_is_digit)),
    fault("the byte after 9 is a digit", Instead(instead::colon_is_digit)),
    fault("the question looks at 4,096 bytes only", Instead(instead::question_cut_short)),
    fault("the question looks at 16,384 bytes only", Instead(instead::question_cut_at_16_384)),
    fault("a control line heeds its first 16 words only", Instead(instead::sixteen_words)),
    fault("cpu.max of one word resets the period", Outcome(outcomes::period_reset)),
    // Names of files.
    fault(
        "a read ignores the last byte of a file's name",
        Instead(instead::last_byte_of_read_ignored),
    ),
    fault(
        "a setting ignores the last byte of a file's name",
        Instead(instead::last_byte_of_setting_ignored),
    ),
    fault("a longer name reads cgroup.procs", Instead(instead::longer_name_read::<0>)),
    fault("a longer name reads cgroup.controllers", Instead(instead::longer_name_read::<1>)),
    fault("a longer name reads cgroup.subtree_control", Instead(instead::longer_name_read::<2>)),
    fault("a longer name reads cgroup.events", Instead(instead::longer_name_read::<3>)),
    fault("a longer name reads cpu.weight", Instead(instead::longer_name_read::<4>)),
    fault("a longer name reads cpu.max", Instead(instead::longer_name_read::<5>)),
    fault("a longer name reads io.max", Instead(instead::longer_name_read::<6>)),
    fault("a longer name reads memory.current", Instead(instead::longer_name_read::<7>)),
    fault("a longer name reads memory.max", Instead(instead::longer_name_read::<8>)),
    fault("a longer name reads pids.current", Instead(instead::longer_name_read::<9>)),
    fault("a longer name reads pids.max", Instead(instead::longer_name_read::<10>)),
    fault("a longer name sets cpu.weight", Instead(instead::longer_name_set::<4>)),
    fault("a longer name sets cpu.max", Instead(instead::longer_name_set::<5>)),
    fault("a longer name sets io.max", Instead(instead::longer_name_set::<6>)),
    fault("a longer name sets memory.max", Instead(instead::longer_name_set::<8>)),
    fault("a longer name sets pids.max", Instead(instead::longer_name_set::<10>)),
    // Effects that go too far, or not far enough.
    fault(
        "a controller that leaves resets the first nine children only",
        Outcome(outcomes::nine_children_reset),
    ),
    fault(
        "a controller that leaves resets the first seventeen children only",
        Outcome(outcomes::seventeen_children_reset),
    ),
    fault(
        "a group made again has the settings of the removed one",
        Outcome(outcomes::settings_outlive),
    ),
    fault("a removed group's own pages go to the root", Outcome(outcomes::pages_to_root)),
    fault("hand over empties the control set", Outcome(outcomes::hand_over_empties_set)),
    fault("fork in the root makes the child user 0's", Outcome(outcomes::root_forks_for_user_0)),
    fault(
        "a move to the root makes the process user 0's",
        Outcome(outcomes::root_takes_for_user_0),
    ),
    fault(
        "memory.max further up ignores pages at depth 16",
        Outcome(outcomes::memory_max_without_deepest),
    ),
    fault(
        "pids.max further up ignores processes at depth 16",
        Outcome(outcomes::pids_max_without_deepest),
    ),
    fault("the machine size ignores pages at depth 16", Outcome(outcomes::machine_without_deepest)),
    fault(
        "a \"+\" that a later \"-\" takes back counts as joining",
        Outcome(outcomes::taken_back_joins),
    ),
    // Readers.
    fault(
        "the membership line of depth 16 loses its last number",
        Reader(readers::deepest_cut_short),
    ),
    fault("a buffer of exactly the length is too short", Reader(readers::exact_is_short)),
    // Devices.
    fault("a key of io.max that is not given goes back to \"max\"", Outcome(devices::keys_reset)),
    fault("a fifth device is taken", Outcome(devices::fifth_taken)),
    fault("a held device is refused where four are held", Outcome(devices::held_is_fifth)),
    fault("a fifth device is refused though all \"max\"", Outcome(devices::idle_fifth_refused)),
    fault(
        "a fifth device is refused though no pair is given",
        Outcome(devices::bare_fifth_refused),
    ),
    fault("no pair clears the device", Outcome(devices::bare_device_cleared)),
    fault("a device all \"max\" is still shown", Outcome(devices::idle_kept)),
    fault(
        "a pair of io.max stays though a later one is out of range",
        Outcome(devices::half_written),
    ),
    fault("io.max outlives io", Outcome(devices::devices_outlive_io)),
    fault("io.max keeps its figures in 32 bits", Outcome(devices::values_in_32_bits)),
    fault("devices are shown in the order in which they came", Reader(devices::as_they_came)),
    fault("devices are shown by minor before major", Reader(devices::by_minor)),
    fault("riops and wiops are shown for each other", Reader(devices::iops_swapped)),
    fault("of a key given twice the last counts", Instead(devices::last_key_counts)),
    fault("a value of io.max ends at a second \"=\"", Instead(devices::second_value_ignored)),
    fault("a longer key is taken for one of the four", Instead(devices::longer_key)),
    fault("a second device in a line is ignored", Instead(devices::second_device_ignored)),
    fault("a device's numbers are kept in 8 bits", Instead(devices::device_in_8_bits)),
    fault("a value of io.max wraps at 64 bits", Instead(devices::value_wraps)),
    fault("\"-io\" is a bad word", Instead(devices::minus_io_refused)),
    fault("the question takes \"+io\" for a bad word", Instead(devices::plus_io_bad)),
    // Numbers in too few bits.
    fault("groups are numbered in 8 bits", Instead(sizes::groups_in_8_bits)),
    fault("processes are numbered in 8 bits", Instead(sizes::processes_in_8_bits)),
    fault("processes are numbered in 10 bits", Instead(sizes::processes_in_10_bits)),
    fault("a line of cgroup.procs is read in 10 bits", Instead(sizes::line_in_10_bits)),
    fault("pids.current is shown in 8 bits", Reader(sizes::population_shown_in_8_bits)),
    fault("pids.current is shown in 10 bits", Reader(sizes::population_shown_in_10_bits)),
    // The sizes of document 01 left in one place, as they were before order 4.
    fault("make ends at parent 63", Instead(sizes::make_from_63)),
    fault("make ends at group 63", Instead(sizes::make_to_63)),
    fault("remove ends at group 63", Instead(sizes::remove_to_63)),
    fault("hand over ends at group 63", Instead(sizes::hand_over_to_63)),
    fault("a move ends at group 63", Instead(sizes::procs_to_63)),
    fault("a control line ends at group 63", Instead(sizes::control_to_63)),
    fault("a setting ends at group 63", Instead(sizes::setting_to_63)),
    fault("release ends at group 63", Instead(sizes::release_to_63)),
    fault("a read ends at group 63", Instead(sizes::read_to_63)),
    fault("admit ends at process 256", Instead(sizes::admit_to_256)),
    fault("fork ends at parent 256", Instead(sizes::fork_from_256)),
    fault("fork ends at process 256", Instead(sizes::fork_to_256)),
    fault("exit ends at process 256", Instead(sizes::exit_to_256)),
    fault("charge ends at process 256", Instead(sizes::charge_to_256)),
    fault("a move ends at process 256", Instead(sizes::line_to_256)),
    fault("a membership line ends at process 256", Instead(sizes::membership_to_256)),
    fault("nothing is made under depth 8", Outcome(sizes::depth_8_is_last)),
    fault("a group is made under depth 16", Outcome(sizes::no_last_depth)),
    fault("a charge asks the nine lowest groups only", Outcome(sizes::charge_of_nine)),
    fault("a fork asks the nine lowest groups only", Outcome(sizes::fork_of_nine)),
    fault("no more than nine groups are counted as consulted", Outcome(sizes::nine_consulted)),
    fault(
        "the common ancestor is sought in the nine lowest groups only",
        Outcome(sizes::met_within_nine),
    ),
    fault(
        "memory.max ignores pages more than eight levels below",
        Outcome(sizes::memory_max_of_eight_levels),
    ),
    fault(
        "pids.max ignores processes more than eight levels below",
        Outcome(sizes::pids_max_of_eight_levels),
    ),
    fault(
        "memory.current ignores pages more than eight levels below",
        Reader(sizes::usage_of_eight_levels),
    ),
    fault(
        "pids.current ignores processes more than eight levels below",
        Reader(sizes::population_of_eight_levels),
    ),
    fault(
        "cgroup.events ignores processes more than eight levels below",
        Reader(sizes::events_of_eight_levels),
    ),
    fault("a controller that leaves resets children up to 63", Outcome(sizes::children_to_63)),
    fault("a controller that leaves does not reset group 255", Outcome(sizes::last_child_kept)),
    fault("remove sees children up to 63", Outcome(sizes::remove_sees_children_to_63)),
    fault("remove sees processes up to 256", Outcome(sizes::remove_sees_processes_to_256)),
    fault("a control line sees children up to 63", Outcome(sizes::control_sees_children_to_63)),
    fault("a control line sees processes up to 256", Outcome(sizes::control_sees_processes_to_256)),
    fault("cgroup.events sees processes up to 256", Reader(sizes::events_to_256)),
    fault("cgroup.procs shows processes up to 256", Reader(sizes::listed_to_256)),
    fault("cgroup.procs shows processes up to 1023", Reader(sizes::listed_to_1023)),
    fault("cgroup.procs shows three digits of a number", Reader(sizes::listed_in_3_digits)),
    fault("a text of more than 916 bytes is refused", Reader(sizes::texts_to_916)),
    fault("a text of 4,013 bytes is refused", Reader(sizes::texts_to_4012)),
    fault("a membership line shows two digits of a number", Reader(sizes::path_in_2_digits)),
    fault("a membership line shows the eight lowest groups", Reader(sizes::path_of_lowest_eight)),
    fault("a membership line shows the eight highest groups", Reader(sizes::path_of_highest_eight)),
    fault("a membership line ends after 28 bytes", Reader(sizes::path_cut_at_28)),
    fault("a membership line of 68 bytes is refused", Reader(sizes::lines_to_67)),
    fault("a membership line of more than 68 bytes is refused", Reader(sizes::lines_to_68)),
    fault("a membership line of 78 bytes is refused", Reader(sizes::lines_to_77)),
    // Zombies that count as live.
    fault("a zombie stays in cgroup.procs", Reader(zombies::listed)),
    fault("pids.current counts zombies", Reader(zombies::counted)),
    fault("a zombie makes a group populated", Reader(zombies::populates)),
    fault("pids.max counts zombies", Outcome(zombies::stops_fork)),
    fault("a zombie stops the removal of its group", Outcome(zombies::stops_removal)),
    fault("a zombie below stops a removal", Outcome(zombies::stops_removal_above)),
    fault("a zombie is an inner process", Outcome(zombies::is_inner_process)),
    fault("a move of a zombie is a success that does nothing", Outcome(zombies::move_is_success)),
    fault("a zombie is moved", Outcome(zombies::moves)),
    fault("a zombie is charged", Outcome(zombies::is_charged)),
    fault("a zombie forks", Outcome(zombies::forks)),
    fault("a zombie ends again", Outcome(zombies::ends_again)),
    // Zombies' numbers.
    fault("exit leaves no zombie", Outcome(zombies::gone_at_once)),
    fault("admit takes a zombie's number", Outcome(zombies::free_to_admit)),
    fault("fork takes a zombie's number", Outcome(zombies::free_to_fork)),
    fault("collect ends a live process", Outcome(zombies::live_is_collected)),
    fault("collect of a free number is a success", Outcome(zombies::free_is_collected)),
    fault("collect of a number out of range is 22", Outcome(zombies::outside_is_22)),
    fault("collect frees nothing", Outcome(zombies::not_collected)),
    fault("collect frees all zombies of a group", Outcome(zombies::all_collected)),
    fault("collect ends at process 256", Instead(sizes::collect_to_256)),
    // Removed groups on zombies' paths.
    fault("a removed number is made again at once", Outcome(zombies::made_at_once)),
    fault(
        "a removed number is made again though a zombie's path comes from below",
        Outcome(zombies::made_above),
    ),
    fault(
        "a removed number is made again though a zombie is two levels below and more",
        Outcome(zombies::made_two_levels_above),
    ),
    fault(
        "a removed number is made again though a zombie is in that group",
        Outcome(zombies::made_in_place),
    ),
    fault(
        "a removed number is made again under another parent",
        Outcome(zombies::made_by_another_parent),
    ),
    fault("a zombie's line follows the number made again", Outcome(zombies::line_follows)),
    fault(
        "a number that a zombie's path ran through is never made again",
        Outcome(zombies::taken_for_good),
    ),
    fault(
        "a removed group above a zombie's own is left when the last was collected",
        Outcome(zombies::above_taken_for_good),
    ),
    fault(
        "collect clears removed groups that another zombie needs",
        Outcome(zombies::clears_too_much),
    ),
    fault("only a zombie's own group is kept when removed", Outcome(zombies::above_forgotten)),
    fault("a group is made under a removed one", Outcome(zombies::made_below_removed)),
    fault("a removed group is read while a zombie is left", Reader(zombies::removed_is_read)),
    fault(
        "a removed group is 17 in every call while a zombie is left",
        Outcome(zombies::removed_is_17),
    ),
    // Zombies' membership lines.
    fault("\" (deleted)\" stands in every zombie's line", Reader(zombies::deleted_too_soon)),
    fault("\" (deleted)\" is missing after the removal", Reader(zombies::never_deleted)),
    fault(
        "\" (deleted)\" is missing until the parent is removed too",
        Reader(zombies::deleted_with_parent_only),
    ),
    fault("\" (deleted)\" stands after the newline", Reader(zombies::deleted_after_newline)),
    fault("a zombie's path is cut at the removed group", Reader(zombies::path_cut)),
    fault("a removed group's path is its number alone", Reader(zombies::path_without_parents)),
    fault("a zombie has no membership line", Reader(zombies::no_line)),
    fault("a zombie's line is gone with its group", Reader(zombies::no_line_after_removal)),
    fault("a zombie's line is that of the root", Outcome(zombies::line_of_root)),
    // Two checks in the wrong order.
    fault(
        "remove asks for processes before the user",
        Swapped(remove::MAY_NOT_WRITE_PARENT, remove::HAS_PROCESS),
    ),
    fault(
        "a move asks for the set before the common ancestor",
        Swapped(write_procs::MAY_NOT_WRITE_LOWEST, write_procs::HAS_SET),
    ),
    fault(
        "a control line asks what is available before it reads every word",
        Swapped(write_subtree_control::BAD_WORD, write_subtree_control::NOT_AVAILABLE),
    ),
    fault(
        "a setting asks for the user before its controller",
        Swapped(write_setting::NOT_ON, write_setting::MAY_NOT_WRITE_PARENT),
    ),
    fault(
        "cpu.max asks for the range before it reads the period",
        Swapped(write_setting::PERIOD_MALFORMED, write_setting::RANGE),
    ),
    fault(
        "io.max asks for the device's range before it reads the pairs",
        Swapped(write_setting::BAD_PAIR, write_setting::RANGE),
    ),
    fault(
        "io.max asks for the range before a key given twice",
        Swapped(write_setting::KEY_TWICE, write_setting::VALUE_RANGE),
    ),
    fault(
        "io.max asks for room before the device's range",
        Swapped(write_setting::RANGE, write_setting::FIFTH_DEVICE),
    ),
    fault(
        "io.max asks for room before the range of a value",
        Swapped(write_setting::VALUE_RANGE, write_setting::FIFTH_DEVICE),
    ),
    fault("fork asks for room before 17", Swapped(fork::NEW_IS_LIVE, fork::PIDS_LIMIT)),
    fault(
        "fork asks for room before a zombie's number",
        Swapped(fork::NEW_IS_ZOMBIE, fork::PIDS_LIMIT),
    ),
    fault(
        "fork asks for the child's number before a zombie's",
        Swapped(fork::PARENT_IS_ZOMBIE, fork::NEW_IS_0),
    ),
    fault(
        "make asks for a zombie's path before the parent",
        Swapped(make::PARENT_NOT_LIVE, make::NEW_ON_ZOMBIES_PATH),
    ),
    fault(
        "make asks for the user before a zombie's path",
        Swapped(make::NEW_ON_ZOMBIES_PATH, make::MAY_NOT_WRITE_PARENT),
    ),
    fault(
        "make asks for the depth before a zombie's path",
        Swapped(make::NEW_ON_ZOMBIES_PATH, make::PARENT_DEEPEST),
    ),
    fault(
        "a move asks for the user before a zombie",
        Swapped(write_procs::PROCESS_IS_ZOMBIE, write_procs::NOT_ITS_USER),
    ),
    fault("charge asks for pages before a zombie", Swapped(charge::IS_ZOMBIE, charge::NO_PAGES)),
    fault("charge asks for pages before the process", Swapped(charge::FREE, charge::NO_PAGES)),
    fault(
        "release asks for the group before the pages",
        Swapped(release::NO_PAGES, release::NOT_LIVE),
    ),
];
