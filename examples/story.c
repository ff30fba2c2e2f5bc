/*
 * Two claims on one machine. The first runs out, its filter does not stop: it tries to get into the
 * next holder's cgroup and at the holder's memory. Each line shows the number that a call answered.
 *
 *     0 (1024 pages)
 *     |- 1  claim of user 1001, process 10 (the filter)
 *     `- 2  claim of user 1002, process 20 (the holder)
 *
 * Build: gcc -Iinclude examples/story.c target/staticlib/libshootspiral.a -o story
 */
#include <stdio.h>
#include <string.h>

#include "shootspiral.h"

#define BYTES(text) (const uint8_t *)(text), strlen(text)

static uint64_t tree[SS_TREE_WORDS];
static uint64_t told[2];

static void show(const char *what, uint32_t number)
{
	printf("%2u  %s\n", (unsigned)number, what);
}

static void show_told(const char *what, uint32_t number)
{
	show(what, number);
	if (told[0] != SS_NO_GROUP)
		printf("    cgroup %llu has no room, %llu consulted\n", (unsigned long long)told[0], (unsigned long long)told[1]);
}

static void show_usage(ss_group group)
{
	char text[SS_LONGEST_REPLY];

	if (ss_read(tree, group, BYTES("memory.current"), (uint8_t *)text, sizeof text, told) == SS_OK)
		printf("    cgroup %llu uses %.*s", (unsigned long long)group.number, (int)told[0], text);
}

int main(void)
{
	ss_fresh(tree, 1024);
	ss_write_subtree_control(tree, ss_u(0), ss_g(0), BYTES("+memory +pids"));
	for (uint32_t claim = 1; claim <= 2; claim++) {
		const char *holder = claim == 1 ? "10" : "20";

		ss_make(tree, ss_u(0), ss_g(0), ss_g(claim));
		ss_hand_over(tree, ss_u(0), ss_g(claim), ss_u(1000 + claim));
		ss_admit(tree, ss_p(10 * claim), ss_u(1000 + claim));
		ss_write_procs(tree, ss_u(0), ss_g(claim), BYTES(holder));
	}
	show_told("the filter works within its claim", ss_charge(tree, ss_p(10), 60, told));

	show("the claim runs out: no more pages", ss_write_setting(tree, ss_u(0), ss_g(1), BYTES("memory.max"), BYTES("0")));
	show("and no more processes", ss_write_setting(tree, ss_u(0), ss_g(1), BYTES("pids.max"), BYTES("0")));
	show_told("the filter charges one page more", ss_charge(tree, ss_p(10), 1, told));
	show_told("it forks", ss_fork(tree, ss_p(10), ss_p(11), told));
	show("it moves itself into the holder's cgroup", ss_write_procs(tree, ss_u(1001), ss_g(2), BYTES("10")));
	show("it pulls the holder over into its own", ss_write_procs(tree, ss_u(1001), ss_g(1), BYTES("20")));
	show("it raises its own limit", ss_write_setting(tree, ss_u(1001), ss_g(1), BYTES("memory.max"), BYTES("max")));
	show("it takes the holder's memory away", ss_write_setting(tree, ss_u(1001), ss_g(2), BYTES("memory.max"), BYTES("0")));
	show("it makes the holder's cgroup its own", ss_hand_over(tree, ss_u(1001), ss_g(2), ss_u(1001)));
	show("it makes a cgroup below the holder's", ss_make(tree, ss_u(1001), ss_g(2), ss_g(3)));

	show_told("the holder saves", ss_charge(tree, ss_p(20), 500, told));
	show_usage(ss_g(1));
	show_usage(ss_g(2));
	return 0;
}
