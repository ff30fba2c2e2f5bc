/*
 * How much stack each call takes: the bytes that it writes below its caller's, its return address
 * among them. A call runs on a stack of its own, painted before; what is no longer paint it has used.
 * scripts/measure-stack builds and runs this.
 *
 * A figure is the largest over many inputs: empty, deep, full and wide trees, trees of zombies, and on
 * each of them all that can be put together of the numbers, files, lines and buffers below. So every
 * call is accepted and is refused by its checks, walks chains of seventeen cgroups and writes the
 * longest texts.
 */
#include <stdio.h>
#include <stdlib.h>
#include <string.h>

#include "shootspiral.h"

#define COUNT(array) (sizeof(array) / sizeof(array)[0])
#define BYTES(text) (const uint8_t *)(text), strlen(text)
#define STACK_WORDS 4096

typedef void function(void);

/* Calls the function with these seven words, on the stack below `top`, and answers what it does. */
uint32_t call_below(uint64_t *top, function *called, const uint64_t arguments[7]);

__asm__(".text\n"
        ".globl call_below\n"
        "call_below:\n"
        "	push %rbp\n"
        "	mov %rsp, %rbp\n"
        "	mov %rdi, %rsp\n"
        "	mov %rsi, %rax\n"
        "	mov %rdx, %r10\n"
        "	mov (%r10), %rdi\n"
        "	mov 8(%r10), %rsi\n"
        "	mov 16(%r10), %rdx\n"
        "	mov 24(%r10), %rcx\n"
        "	mov 32(%r10), %r8\n"
        "	mov 40(%r10), %r9\n"
        "	mov 48(%r10), %r10\n"
        "	mov %r10, (%rsp)\n" /* the seventh, which is in the caller's part of the stack */
        "	call *%rax\n"
        "	mov %rbp, %rsp\n"
        "	pop %rbp\n"
        "	ret\n");

/* The bytes of stack that a call takes, and its answer. Two words stay for the caller's part. */
static size_t taken(function *called, const uint64_t arguments[7], uint64_t paint, uint32_t *answer)
{
	static uint64_t stack[STACK_WORDS + 2] __attribute__((aligned(16)));
	size_t clean = 0;

	for (size_t i = 0; i < STACK_WORDS; i++)
		stack[i] = paint;
	*answer = call_below(&stack[STACK_WORDS], called, arguments);
	while (clean < STACK_WORDS && stack[clean] == paint)
		clean++;
	return (STACK_WORDS - clean) * sizeof stack[0];
}

/*
 * What a call takes, by letters: a Tree, a User, a Group, a Process, a Number of pages, a File and a
 * Line with their lengths, a Reply buffer with its room, Told.
 */
static struct call {
	const char *name;
	function *called;
	const char *takes;
	int answers; /* whether it answers a number */
	size_t most;
	int is_accepted, is_refused;
} calls[] = {
	{ "ss_fresh", (function *)ss_fresh, "TN", 0, 0, 0, 0 },
	{ "ss_tree_words", (function *)ss_tree_words, "", 0, 0, 0, 0 },
	{ "ss_make", (function *)ss_make, "TUGG", 1, 0, 0, 0 },
	{ "ss_remove", (function *)ss_remove, "TUG", 1, 0, 0, 0 },
	{ "ss_hand_over", (function *)ss_hand_over, "TUGU", 1, 0, 0, 0 },
	{ "ss_write_procs", (function *)ss_write_procs, "TUGL", 1, 0, 0, 0 },
	{ "ss_write_subtree_control", (function *)ss_write_subtree_control, "TUGL", 1, 0, 0, 0 },
	{ "ss_write_setting", (function *)ss_write_setting, "TUGFL", 1, 0, 0, 0 },
	{ "ss_admit", (function *)ss_admit, "TPU", 1, 0, 0, 0 },
	{ "ss_fork", (function *)ss_fork, "TPPt", 1, 0, 0, 0 },
	{ "ss_exit", (function *)ss_exit, "TP", 1, 0, 0, 0 },
	{ "ss_collect", (function *)ss_collect, "TP", 1, 0, 0, 0 },
	{ "ss_charge", (function *)ss_charge, "TPNt", 1, 0, 0, 0 },
	{ "ss_release", (function *)ss_release, "TGN", 1, 0, 0, 0 },
	{ "ss_read", (function *)ss_read, "TGFRt", 1, 0, 0, 0 },
	{ "ss_membership", (function *)ss_membership, "TPRt", 1, 0, 0, 0 },
	{ "ss_first_bad_word", (function *)ss_first_bad_word, "Lt", 0, 0, 0, 0 },
};

/* The deep trees are made of the first cgroups, or of the last, as many as there are depths. */
#define FIRST_OF_LAST (SS_LAST_GROUP - SS_MAX_DEPTH + 1)

static const uint64_t users[] = { 0, 1000, UINT32_MAX };
static const uint64_t groups[] = {
	0, 1, 2, SS_MAX_DEPTH - 1, SS_MAX_DEPTH, SS_MAX_DEPTH + 1, FIRST_OF_LAST - 1, FIRST_OF_LAST, FIRST_OF_LAST + 1,
	SS_LAST_GROUP - 1, SS_LAST_GROUP, SS_LAST_GROUP + 1, UINT64_MAX,
};
static const uint64_t processes[] = { 0, 1, 9, 10, 100, SS_LAST_PROCESS - 1, SS_LAST_PROCESS, SS_LAST_PROCESS + 1, UINT64_MAX };
static const uint64_t pages[] = { 0, 1, SS_MAX_PAGES, SS_MAX_PAGES + 1, SS_MAX_MACHINE_PAGES, UINT64_MAX };
static const uint64_t rooms[] = { 0, 4, SS_LONGEST_MEMBERSHIP - 1, SS_LONGEST_MEMBERSHIP, SS_LONGEST_REPLY - 1, SS_LONGEST_REPLY };

static const char *const files[] = {
	"cgroup.procs", "cgroup.controllers", "cgroup.subtree_control", "cgroup.events", "memory.current", "memory.max",
	"pids.current", "pids.max", "cpu.weight", "cpu.max", "io.max", "cpu", "",
};

#define TEN(text) text text text text text text text text text text
#define DEVICE(number) number " rbps=4503599627370496 wbps=4503599627370496 riops=4503599627370496 wiops=4503599627370496\n"
#define NO_LIMIT(number) number " rbps=max wbps=max riops=max wiops=max"

static const char *const lines[] = {
	"", "\n", "x", "0", "1", "10\n", "1023", "1024", "1025", "max", "-1",
	"4503599627370496", "4503599627370497", "18446744073709551616", "4194304", "10000", "1000000000",
	"max 1000000", "1000000000 1000000", "1000 999", "1000 1000 1000", "1 x",
	"0:0", "256:0", "8:16 rbps=0", "8:16 rbps=1 rbps=1", "8:16 rbps", "8:16 9:0",
	"0:0 wiops=120", "128:0 rbps=2097152 riops=max\n", DEVICE("255:253"), NO_LIMIT("255:252"), NO_LIMIT("0:0"),
	"+cpu", "+io", "+cpu +io +memory +pids", "-cpu -io -memory -pids", "-pids +cpu\n", "+cpu +disk", "-cpu +",
	TEN("            ") "    +cpu",        /* 128 bytes */
	TEN("            ") "     +cpu",       /* 129 */
	TEN("+cpu -cpu +c") "pu +cpu",         /* many words, one of them bad */
	TEN("+pids -pids ") "-memory",         /* many words, all of them good */
	TEN("000000000000") "00000001",        /* 128 digits */
	"8:16 rbps=" TEN("00000000000") "00000001",
	TEN("999999999999") "99999999",
	TEN("+memory -memory +pids -pids +cpu -cpu +io -io "),
};

static uint64_t trees[8][SS_TREE_WORDS];
static uint64_t tree[SS_TREE_WORDS], told[2];
static uint8_t reply[SS_LONGEST_REPLY];

/* Runs a call on a copy of each tree, and with two paints, as it might write the one. */
static void measure(struct call *call, const uint64_t arguments[7])
{
	static const uint64_t paints[] = { UINT64_C(0xa5a5a5a5a5a5a5a5), UINT64_C(0x5a5a5a5a5a5a5a5a) };

	for (size_t i = 0; i < COUNT(trees); i++) {
		for (size_t j = 0; j < COUNT(paints); j++) {
			uint32_t answer;
			size_t bytes;

			memcpy(tree, trees[i], sizeof tree);
			bytes = taken(call->called, arguments, paints[j], &answer);
			if (bytes > call->most)
				call->most = bytes;
			call->is_accepted |= answer == SS_OK;
			call->is_refused |= answer != SS_OK;
		}
	}
}

static void vary(struct call *call, const char *takes, uint64_t arguments[7], size_t count);

static void vary_number(struct call *call, const char *takes, uint64_t arguments[7], size_t count, const uint64_t *numbers, size_t length)
{
	for (size_t i = 0; i < length; i++) {
		arguments[count] = numbers[i];
		vary(call, takes + 1, arguments, count + 1);
	}
}

static void vary_text(struct call *call, const char *takes, uint64_t arguments[7], size_t count, const char *const *texts, size_t length)
{
	for (size_t i = 0; i < length; i++) {
		arguments[count] = (uint64_t)(uintptr_t)texts[i];
		arguments[count + 1] = strlen(texts[i]);
		vary(call, takes + 1, arguments, count + 2);
	}
}

/* Measures the call with everything that it can take after the arguments that it already has. */
static void vary(struct call *call, const char *takes, uint64_t arguments[7], size_t count)
{
	switch (*takes) {
	case 'T':
		arguments[count] = (uint64_t)(uintptr_t)tree;
		vary(call, takes + 1, arguments, count + 1);
		break;
	case 't':
		arguments[count] = (uint64_t)(uintptr_t)told;
		vary(call, takes + 1, arguments, count + 1);
		break;
	case 'U':
		vary_number(call, takes, arguments, count, users, COUNT(users));
		break;
	case 'G':
		vary_number(call, takes, arguments, count, groups, COUNT(groups));
		break;
	case 'P':
		vary_number(call, takes, arguments, count, processes, COUNT(processes));
		break;
	case 'N':
		vary_number(call, takes, arguments, count, pages, COUNT(pages));
		break;
	case 'F':
		vary_text(call, takes, arguments, count, files, COUNT(files));
		break;
	case 'L':
		vary_text(call, takes, arguments, count, lines, COUNT(lines));
		break;
	case 'R':
		arguments[count] = (uint64_t)(uintptr_t)reply;
		vary_number(call, takes, arguments, count + 1, rooms, COUNT(rooms));
		break;
	default:
		measure(call, arguments);
	}
}

/* A tree is to be what its maker says, or the figures are of something else. */
static void must(uint32_t answer)
{
	if (answer != SS_OK) {
		fprintf(stderr, "a call that makes a tree was refused with %d\n", (int)answer);
		exit(1);
	}
}

/* The last devices that there can be, the last of them first. */
static void limit_devices(uint64_t *t, ss_group group, size_t count)
{
	static const char *const last[SS_MAX_DEVICES] = { DEVICE("255:255"), DEVICE("255:254"), DEVICE("255:253"), DEVICE("255:252") };

	for (size_t i = 0; i < count; i++)
		must(ss_write_setting(t, ss_u(0), group, BYTES("io.max"), BYTES(last[i])));
}

static void set_all(uint64_t *t, ss_group group, const char *memory, const char *pids)
{
	must(ss_write_setting(t, ss_u(0), group, BYTES("memory.max"), BYTES(memory)));
	must(ss_write_setting(t, ss_u(0), group, BYTES("pids.max"), BYTES(pids)));
	must(ss_write_setting(t, ss_u(0), group, BYTES("cpu.weight"), BYTES("10000")));
	must(ss_write_setting(t, ss_u(0), group, BYTES("cpu.max"), BYTES("1000000000 1000000")));
	limit_devices(t, group, SS_MAX_DEVICES);
}

/*
 * Cgroups one below the other to the last depth, numbered from `first` on in steps, all controllers
 * on and the limits as large as they can be. All but the first are user 1000's, and in the last are so
 * many processes of his, with so many times the most pages of a charge.
 */
static void make_deep(uint64_t *t, uint64_t first, int step, uint64_t count, uint64_t charges)
{
	uint64_t above = 0, group = first;

	ss_fresh(t, SS_MAX_MACHINE_PAGES);
	for (int depth = 1; depth <= SS_MAX_DEPTH; depth++) {
		must(ss_write_subtree_control(t, ss_u(0), ss_g(above), BYTES("+cpu +io +memory +pids")));
		must(ss_make(t, ss_u(0), ss_g(above), ss_g(group)));
		set_all(t, ss_g(group), "4503599627370496", "4194304");
		if (depth > 1)
			must(ss_hand_over(t, ss_u(0), ss_g(group), ss_u(1000)));
		above = group;
		group += step;
	}
	for (uint64_t process = 1; process <= count; process++) {
		char line[24];

		snprintf(line, sizeof line, "%d", (int)process);
		must(ss_admit(t, ss_p(process), ss_u(1000)));
		must(ss_write_procs(t, ss_u(0), ss_g(above), BYTES(line)));
	}
	for (uint64_t i = 0; i < charges; i++)
		must(ss_charge(t, ss_p(1), SS_MAX_PAGES, told));
}

/* Ends so many processes of a deep tree, from the first on. */
static void end(uint64_t *t, uint64_t count)
{
	for (uint64_t process = 1; process <= count; process++)
		must(ss_exit(t, ss_p(process)));
}

/* Removes all cgroups of a deep tree that was numbered upwards, the last first. */
static void remove_all(uint64_t *t, uint64_t last)
{
	for (uint64_t i = 0; i < SS_MAX_DEPTH; i++)
		must(ss_remove(t, ss_u(0), ss_g(last - i)));
}

static void make_trees(void)
{
	uint64_t *deep = trees[1], *full = trees[2], *tight = trees[3], *wide = trees[4];
	uint64_t *ended = trees[5], *last_zombie = trees[6], *half = trees[7];

	ss_fresh(trees[0], 1024);
	/* Room for a process and a charge more, and a second leaf to move to, with room for a device. */
	make_deep(deep, 1, 1, SS_LAST_PROCESS - 1, SS_MAX_MACHINE_PAGES / SS_MAX_PAGES - 1);
	must(ss_make(deep, ss_u(0), ss_g(SS_MAX_DEPTH - 1), ss_g(SS_MAX_DEPTH + 1)));
	must(ss_hand_over(deep, ss_u(0), ss_g(SS_MAX_DEPTH + 1), ss_u(1000)));
	limit_devices(deep, ss_g(SS_MAX_DEPTH + 1), SS_MAX_DEVICES - 1);
	make_deep(full, SS_LAST_GROUP, -1, SS_LAST_PROCESS, SS_MAX_MACHINE_PAGES / SS_MAX_PAGES);
	/* No room in the last but one that is asked. */
	make_deep(tight, FIRST_OF_LAST, 1, SS_LAST_PROCESS - 1, 1);
	set_all(tight, ss_g(FIRST_OF_LAST), "0", "0");
	/* All cgroups are removed around zombies: all that there can be, and one, whose collection frees every number. */
	make_deep(ended, FIRST_OF_LAST, 1, SS_LAST_PROCESS, 1);
	end(ended, SS_LAST_PROCESS);
	remove_all(ended, SS_LAST_GROUP);
	make_deep(last_zombie, FIRST_OF_LAST, 1, 1, 1);
	end(last_zombie, 1);
	remove_all(last_zombie, SS_LAST_GROUP);
	/* Zombies beside live processes, in a live cgroup. */
	make_deep(half, 1, 1, SS_LAST_PROCESS - 1, 1);
	end(half, SS_LAST_PROCESS / 2);
	ss_fresh(wide, 1024);
	must(ss_write_subtree_control(wide, ss_u(0), ss_g(0), BYTES("+cpu +io +memory +pids")));
	for (uint64_t group = 1; group <= SS_LAST_GROUP; group++) {
		must(ss_make(wide, ss_u(0), ss_g(0), ss_g(group)));
		set_all(wide, ss_g(group), "4096", "1");
	}
}

int main(void)
{
	make_trees();
	for (size_t i = 0; i < COUNT(calls); i++) {
		uint64_t arguments[7] = { 0 };

		vary(&calls[i], calls[i].takes, arguments, 0);
		if (calls[i].answers && !(calls[i].is_accepted && calls[i].is_refused)) {
			fprintf(stderr, "%s was never accepted, or never refused\n", calls[i].name);
			return 1;
		}
		printf("%s %d\n", calls[i].name, (int)calls[i].most);
	}
	return 0;
}
