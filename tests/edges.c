/*
 * Bad input through the C interface: every call with numbers out of range, empty and long lines, NUL
 * and 0xff bytes, buffers too short. Each must answer document 01's number and touch nothing: the
 * words of the tree, the reply buffer, and the memory around tree, buffer and told stay as they were.
 *
 *     0  1024 pages; cpu, io, memory and pids in its set; process 20 of user 2000
 *     |- 1   of user 1000, 2 own pages, memory.max 2 pages, pids.max 1, io.max full; process 10 of user 1000
 *     |- 2   of user 1000, memory in its set
 *     |  `- 3
 *     |- 4   of user 1000
 *     `- 201, 202 below it, and so on down to 216 at depth 16, with process 30
 *
 * Then the last numbers, all live: 239 below the root, memory.max 2000 pages, 240 below it, and so on
 * down to 253 at depth 15; below that 254 with all 1024 processes, and 255 with none and an own page.
 * Then the same when all processes have ended and all these groups are removed, the deepest first.
 *
 * Then zombies beside the live:
 *
 *     0  1024 pages; cpu, io, memory and pids in its set; process 20 of user 2000, zombie 1
 *     |- 1   of user 1000, pids.max 2; process 10 of user 1000, zombie 11
 *     |- 2   zombies 12 and 13
 *     |- 3   pids.max 1; process 16 of user 1000
 *     |- 4   with 5 below it, and 6 below that; both removed, with zombie 14 in 6
 *     `- 201 to 216, as above, all removed, with zombie 30 in 216
 *
 * Group 7 and process 15 are free again there: 15 ended in 7, 7 was removed, and 15 was collected.
 *
 * A row is a call, the number that the papers give it and what it tells. The rows of a call stand in the
 * order of its checks, and many break a later check too. Where a line, a file name or a buffer has
 * length 0 the row runs again with NULL in its place.
 */
#include <inttypes.h>
#include <stdio.h>
#include <string.h>

#include "shootspiral.h"

#define NOBODY UINT32_MAX           /* a user who owns nothing */
#define TWO_8 UINT64_C(256)         /* 0 if it were cut to 8 bits */
#define TWO_16 UINT64_C(65536)      /* to 16 */
#define TWO_32 UINT64_C(4294967296) /* to 32 */
#define MOST UINT64_MAX
#define NONE SS_NO_GROUP

#define COUNT(array) (sizeof(array) / sizeof(array)[0])

struct bytes {
	const char *at;
	size_t length;
};

#define T(text) { text, sizeof(text) - 1 }
#define NO_BYTE_OF(text) { text, 0 }

/* Lines of a given length: so many zeros, or spaces, and then a text. */
#define ZEROS_10 "0000000000"
#define ZEROS_110 ZEROS_10 ZEROS_10 ZEROS_10 ZEROS_10 ZEROS_10 ZEROS_10 ZEROS_10 ZEROS_10 ZEROS_10 ZEROS_10 ZEROS_10
#define ZEROS_120 ZEROS_110 ZEROS_10
#define SPACES_10 "          "
#define SPACES_120 \
	SPACES_10 SPACES_10 SPACES_10 SPACES_10 SPACES_10 SPACES_10 SPACES_10 SPACES_10 SPACES_10 SPACES_10 SPACES_10 SPACES_10

/* A device's line in io.max, as long as can be: 98 bytes. */
#define DEVICE(number) number " rbps=4503599627370496 wbps=4503599627370496 riops=4503599627370496 wiops=4503599627370496\n"
#define FOUR_DEVICES DEVICE("255:252") DEVICE("255:253") DEVICE("255:254") DEVICE("255:255")

enum call { MAKE, REMOVE, HAND_OVER, PROCS, CONTROL, SETTING, ADMIT, FORK, EXIT, COLLECT, CHARGE, RELEASE, READ, MEMBERSHIP, WORD };

struct row {
	enum call call;
	const char *shown;
	uint32_t user;
	uint32_t owner;
	uint64_t first; /* the numbers, in the order of the arguments */
	uint64_t second;
	struct bytes file;
	struct bytes line;
	size_t room;
	uint32_t number; /* from here on what must come of it */
	struct bytes text;
	size_t tells; /* how many words */
	uint64_t told[2];
};

#define MAKE(u, parent, group, n) \
	{ .call = MAKE, .shown = "ss_make " #u ", " #parent ", " #group, .user = u, .first = parent, .second = group, .number = n }
#define REMOVE(u, group, n) \
	{ .call = REMOVE, .shown = "ss_remove " #u ", " #group, .user = u, .first = group, .number = n }
#define HAND_OVER(u, group, o, n) \
	{ .call = HAND_OVER, .shown = "ss_hand_over " #u ", " #group ", " #o, .user = u, .first = group, .owner = o, .number = n }
#define PROCS(u, group, l, n) \
	{ .call = PROCS, .shown = "ss_write_procs " #u ", " #group ", " #l, .user = u, .first = group, .line = l, .number = n }
#define CONTROL(u, group, l, n) \
	{ .call = CONTROL, .shown = "ss_write_subtree_control " #u ", " #group ", " #l, .user = u, .first = group, .line = l, .number = n }
#define SETTING(u, group, f, l, n) \
	{ .call = SETTING, .shown = "ss_write_setting " #u ", " #group ", " #f ", " #l, .user = u, .first = group, .file = f, .line = l, \
	  .number = n }
#define ADMIT(process, u, n) \
	{ .call = ADMIT, .shown = "ss_admit " #process ", " #u, .first = process, .user = u, .number = n }
#define FORK(parent, process, n, group, consulted) \
	{ .call = FORK, .shown = "ss_fork " #parent ", " #process, .first = parent, .second = process, .number = n, .tells = 2, \
	  .told = { group, consulted } }
#define EXIT(process, n) \
	{ .call = EXIT, .shown = "ss_exit " #process, .first = process, .number = n }
#define COLLECT(process, n) \
	{ .call = COLLECT, .shown = "ss_collect " #process, .first = process, .number = n }
#define CHARGE(process, pages, n, group, consulted) \
	{ .call = CHARGE, .shown = "ss_charge " #process ", " #pages, .first = process, .second = pages, .number = n, .tells = 2, \
	  .told = { group, consulted } }
#define RELEASE(group, pages, n) \
	{ .call = RELEASE, .shown = "ss_release " #group ", " #pages, .first = group, .second = pages, .number = n }
#define READ(group, f, r, n, t) \
	{ .call = READ, .shown = "ss_read " #group ", " #f ", " #r, .first = group, .file = f, .room = r, .number = n, .text = t, \
	  .tells = 1 }
#define MEMBERSHIP(process, r, n, t) \
	{ .call = MEMBERSHIP, .shown = "ss_membership " #process ", " #r, .first = process, .room = r, .number = n, .text = t, .tells = 1 }
#define WORD(l, place, length) \
	{ .call = WORD, .shown = "ss_first_bad_word " #l, .line = l, .tells = 2, .told = { place, length } }

/* These leave the tree as it was. The few with 0 read, or ask for what already holds. */
static const struct row same[] = {
	/* user, parent, group: number */
	MAKE(0, SS_LAST_GROUP + 1, 5, 22),
	MAKE(0, TWO_8 + 1, 5, 22),
	MAKE(0, TWO_16, 5, 22),
	MAKE(0, TWO_32, 5, 22),
	MAKE(0, MOST, 5, 22),
	MAKE(0, 0, SS_LAST_GROUP + 1, 22),
	MAKE(0, 0, TWO_8 + 5, 22),
	MAKE(0, 0, TWO_16 + 5, 22),
	MAKE(0, 0, TWO_32 + 5, 22),
	MAKE(0, 0, MOST, 22),
	MAKE(NOBODY, SS_LAST_GROUP, SS_LAST_GROUP + 1, 22),
	MAKE(0, SS_LAST_GROUP, 5, 2),
	MAKE(NOBODY, SS_LAST_GROUP, 1, 2),
	MAKE(0, 0, 0, 17),
	MAKE(0, 0, 1, 17),
	MAKE(NOBODY, 0, 1, 17),
	MAKE(NOBODY, 0, SS_LAST_GROUP, 13),
	MAKE(1000, 0, SS_LAST_GROUP, 13),
	MAKE(NOBODY, 216, SS_LAST_GROUP, 13),
	MAKE(0, 216, SS_LAST_GROUP, 11),

	/* user, group: number */
	REMOVE(0, SS_LAST_GROUP + 1, 22),
	REMOVE(0, TWO_8 + 3, 22),
	REMOVE(0, TWO_16 + 3, 22),
	REMOVE(0, TWO_32 + 3, 22),
	REMOVE(0, MOST, 22),
	REMOVE(NOBODY, SS_LAST_GROUP + 1, 22),
	REMOVE(0, SS_LAST_GROUP, 2),
	REMOVE(NOBODY, SS_LAST_GROUP, 2),
	REMOVE(NOBODY, 0, 13),
	REMOVE(NOBODY, 1, 13),
	REMOVE(1000, 4, 13),
	REMOVE(0, 0, 16),
	REMOVE(0, 1, 16),
	REMOVE(0, 2, 16),

	/* user, group, owner: number */
	HAND_OVER(0, 0, 1000, 22),
	HAND_OVER(0, SS_LAST_GROUP + 1, 1000, 22),
	HAND_OVER(0, TWO_8 + 1, 2000, 22),
	HAND_OVER(0, TWO_16 + 1, 2000, 22),
	HAND_OVER(0, TWO_32 + 1, 2000, 22),
	HAND_OVER(0, MOST, NOBODY, 22),
	HAND_OVER(NOBODY, 0, NOBODY, 22),
	HAND_OVER(0, SS_LAST_GROUP, NOBODY, 2),
	HAND_OVER(NOBODY, SS_LAST_GROUP, 0, 2),
	HAND_OVER(NOBODY, 1, NOBODY, 13),
	HAND_OVER(1000, 1, 0, 13),

	/* user, group, line: number */
	PROCS(0, SS_LAST_GROUP + 1, T("10"), 22),
	PROCS(0, TWO_8 + 4, T("10"), 22),
	PROCS(0, TWO_16 + 4, T("10"), 22),
	PROCS(0, TWO_32 + 4, T("10"), 22),
	PROCS(0, MOST, NO_BYTE_OF("10"), 22),
	PROCS(NOBODY, SS_LAST_GROUP + 1, T("x"), 22),
	PROCS(0, SS_LAST_GROUP, T("10"), 2),
	PROCS(NOBODY, SS_LAST_GROUP, NO_BYTE_OF("10"), 2),
	PROCS(NOBODY, 4, T("10"), 13),
	PROCS(NOBODY, 4, NO_BYTE_OF("10"), 13),
	PROCS(0, 4, NO_BYTE_OF("10"), 22),
	PROCS(0, 4, T("\n"), 22),
	PROCS(0, 4, T(" "), 22),
	PROCS(0, 4, T("10 20"), 22),
	PROCS(0, 4, T("10\n\n"), 22),
	PROCS(0, 4, T("-10"), 22),
	PROCS(0, 4, T("10\0"), 22),
	PROCS(0, 4, T("\0"), 22),
	PROCS(0, 4, T("\xff"), 22),
	PROCS(0, 4, T(ZEROS_120 "000000010"), 22),
	PROCS(0, 4, T(ZEROS_120 "00000010\n"), 22),
	PROCS(0, 4, T(SPACES_120 SPACES_120 SPACES_10 SPACES_10 SPACES_10 SPACES_10 SPACES_10 "        10"), 22),
	PROCS(0, 4, T("0"), 22),
	PROCS(0, 4, T(ZEROS_120 "00000000"), 22),
	PROCS(0, 4, T("266"), 3),
	PROCS(0, 4, T("1024"), 3),
	PROCS(0, 4, T("1025"), 3),
	PROCS(0, 4, T("1034"), 3),
	PROCS(0, 4, T("65546"), 3),
	PROCS(0, 4, T("4294967306"), 3),
	PROCS(0, 4, T("18446744073709551626"), 3),
	PROCS(0, 4, T(ZEROS_120 "0001025"), 3),
	PROCS(0, 4, T("9" ZEROS_120 "0000010"), 3),
	PROCS(1000, 2, T("11"), 3),
	PROCS(1000, 4, T("20"), 13),
	PROCS(1000, 4, T("10"), 13),
	PROCS(1000, 2, T("10"), 13),
	PROCS(0, 2, T("10"), 16),

	/* user, group, line: number */
	CONTROL(0, SS_LAST_GROUP + 1, T("-cpu"), 22),
	CONTROL(0, TWO_8 + 1, T("-cpu"), 22),
	CONTROL(0, TWO_16, T("-cpu"), 22),
	CONTROL(0, TWO_32, T("-cpu"), 22),
	CONTROL(0, MOST, NO_BYTE_OF("-cpu"), 22),
	CONTROL(NOBODY, SS_LAST_GROUP + 1, T("x"), 22),
	CONTROL(0, SS_LAST_GROUP, T("-cpu"), 2),
	CONTROL(NOBODY, SS_LAST_GROUP, NO_BYTE_OF("-cpu"), 2),
	CONTROL(NOBODY, 0, T("-cpu"), 13),
	CONTROL(NOBODY, 0, NO_BYTE_OF("-cpu"), 13),
	CONTROL(NOBODY, 0, T("x"), 13),
	CONTROL(0, 0, T("cpu"), 22),
	CONTROL(0, 0, T("-"), 22),
	CONTROL(0, 0, T("-cpu\n-pids"), 22),
	CONTROL(0, 0, T("-cpu\n\n"), 22),
	CONTROL(0, 0, T("-cpu\0"), 22),
	CONTROL(0, 0, T("\0"), 22),
	CONTROL(0, 0, T("-cpu \xff"), 22),
	CONTROL(0, 0, T("-i"), 22),
	CONTROL(0, 0, T("-io\0"), 22),
	CONTROL(0, 0, T("-io.max"), 22),
	CONTROL(0, 0, T(SPACES_120 "     -cpu"), 22),
	CONTROL(0, 0, T(SPACES_120 "    -cpu\n"), 22),
	CONTROL(0, 0, T(SPACES_120 SPACES_120 SPACES_10 SPACES_10 SPACES_10 SPACES_10 SPACES_10 "      -cpu"), 22),
	CONTROL(0, 3, T("+cpu x"), 22),
	CONTROL(0, 3, T("+cpu"), 2),
	CONTROL(0, 3, T("+memory +pids"), 2),
	CONTROL(0, 3, T("+io"), 2),
	CONTROL(0, 0, T("-memory"), 16),
	CONTROL(0, 1, T("+memory"), 16),
	CONTROL(0, 1, T("+io"), 16),
	CONTROL(0, 0, NO_BYTE_OF("-cpu"), 0),
	CONTROL(0, 0, T("\n"), 0),
	CONTROL(0, 0, T(SPACES_120 "        "), 0),
	CONTROL(0, 0, T(SPACES_120 "   +cpu\n"), 0),
	CONTROL(0, 0, T("-io +io"), 0),

	/* user, group, file, line: number */
	SETTING(0, SS_LAST_GROUP + 1, T("cpu.weight"), T("1"), 22),
	SETTING(0, TWO_8 + 4, T("cpu.weight"), T("1"), 22),
	SETTING(0, TWO_16 + 4, T("cpu.weight"), T("1"), 22),
	SETTING(0, TWO_32 + 4, T("cpu.weight"), T("1"), 22),
	SETTING(0, MOST, NO_BYTE_OF("cpu.weight"), NO_BYTE_OF("1"), 22),
	SETTING(0, SS_LAST_GROUP, T("cpu.weight"), T("1"), 2),
	SETTING(NOBODY, SS_LAST_GROUP, NO_BYTE_OF("cpu.weight"), NO_BYTE_OF("1"), 2),
	SETTING(0, 4, NO_BYTE_OF("cpu.weight"), T("1"), 2),
	SETTING(NOBODY, 4, NO_BYTE_OF("cpu.weight"), NO_BYTE_OF("1"), 2),
	SETTING(0, 4, T("cpu.weigh"), T("1"), 2),
	SETTING(0, 4, T("cpu.weight\0"), T("1"), 2),
	SETTING(0, 4, T("cpu.weight\n"), T("1"), 2),
	SETTING(0, 4, T("\0"), T("1"), 2),
	SETTING(0, 4, T("\xff"), T("1"), 2),
	SETTING(0, 4, T("memory.current"), T("1"), 2),
	SETTING(0, 4, T(ZEROS_120 ZEROS_120 ZEROS_10 ZEROS_10 ZEROS_10 ZEROS_10 ZEROS_10 ZEROS_10), T("1"), 2),
	SETTING(0, 4, T("io.ma"), T("8:16 rbps=1"), 2),
	SETTING(0, 4, T("io.max\0"), T("8:16 rbps=1"), 2),
	SETTING(0, 0, T("cpu.weight"), T("1"), 2),
	SETTING(0, 0, T("io.max"), T("8:16 rbps=1"), 2),
	SETTING(0, 3, T("cpu.weight"), T("1"), 2),
	SETTING(0, 3, T("io.max"), NO_BYTE_OF("8:16"), 2),
	SETTING(NOBODY, 4, T("cpu.weight"), T("1"), 13),
	SETTING(1000, 4, T("cpu.weight"), T("x"), 13),
	SETTING(1000, 4, T("io.max"), T("8:16 rbps=x"), 13),
	SETTING(1000, 1, T("io.max"), T("8:16 rbps=1"), 13),
	SETTING(0, 4, T("memory.max"), NO_BYTE_OF("1"), 22),
	SETTING(0, 4, T("pids.max"), NO_BYTE_OF("1"), 22),
	SETTING(0, 4, T("cpu.weight"), NO_BYTE_OF("1"), 22),
	SETTING(0, 4, T("cpu.max"), NO_BYTE_OF("1000"), 22),
	SETTING(0, 4, T("cpu.max"), T("\n"), 22),
	SETTING(0, 4, T("memory.max"), T("1 2"), 22),
	SETTING(0, 4, T("cpu.max"), T("1000 1000 1000"), 22),
	SETTING(0, 4, T("cpu.max"), T("1 x"), 22),
	SETTING(0, 4, T("cpu.weight"), T("max"), 22),
	SETTING(0, 4, T("cpu.weight"), T("1\0"), 22),
	SETTING(0, 4, T("pids.max"), T("\0"), 22),
	SETTING(0, 4, T("memory.max"), T("\xff"), 22),
	SETTING(0, 4, T("cpu.weight"), T(ZEROS_120 "000000001"), 22),
	SETTING(0, 4, T("pids.max"), T(ZEROS_120 "00000001\n"), 22),
	SETTING(0, 4, T("memory.max"), T(ZEROS_120 ZEROS_120 ZEROS_10 ZEROS_10 ZEROS_10 ZEROS_10 ZEROS_10 ZEROS_10), 22),
	SETTING(0, 4, T("memory.max"), T("4503599627370497"), 34),
	SETTING(0, 4, T("memory.max"), T("18446744073709551616"), 34),
	SETTING(0, 4, T("pids.max"), T("4194305"), 34),
	SETTING(0, 4, T("pids.max"), T("4294967296"), 34),
	SETTING(0, 4, T("cpu.weight"), T("0"), 34),
	SETTING(0, 4, T("cpu.weight"), T("10001"), 34),
	SETTING(0, 4, T("cpu.weight"), T("9" ZEROS_120 "0000001"), 34),
	SETTING(0, 4, T("cpu.weight"), T(ZEROS_120 "0010001"), 34),
	SETTING(0, 4, T("cpu.max"), T("999"), 34),
	SETTING(0, 4, T("cpu.max"), T("1000000001"), 34),
	SETTING(0, 4, T("cpu.max"), T("1000 999"), 34),
	SETTING(0, 4, T("cpu.max"), T("1000 1000001"), 34),

	/* A device in io.max, and its pairs; group 1 has no room for another device. */
	SETTING(0, 4, T("io.max"), NO_BYTE_OF("8:16"), 22),
	SETTING(0, 4, T("io.max"), T("\n"), 22),
	SETTING(0, 4, T("io.max"), T(" "), 22),
	SETTING(0, 4, T("io.max"), T("\0"), 22),
	SETTING(0, 4, T("io.max"), T("\xff"), 22),
	SETTING(0, 4, T("io.max"), T("max"), 22),
	SETTING(0, 4, T("io.max"), T("8"), 22),
	SETTING(0, 4, T("io.max"), T(":"), 22),
	SETTING(0, 4, T("io.max"), T("8:"), 22),
	SETTING(0, 4, T("io.max"), T(":16"), 22),
	SETTING(0, 4, T("io.max"), T("8 :16"), 22),
	SETTING(0, 4, T("io.max"), T("8:16:0 rbps=1"), 22),
	SETTING(0, 4, T("io.max"), T("8:-16 rbps=1"), 22),
	SETTING(0, 4, T("io.max"), T("8:max"), 22),
	SETTING(0, 4, T("io.max"), T("8:16\0"), 22),
	SETTING(0, 4, T("io.max"), T("8:16\0rbps=1"), 22),
	SETTING(0, 4, T("io.max"), T("rbps=1"), 22),
	SETTING(0, 4, T("io.max"), T("rbps=1 8:16"), 22),
	SETTING(0, 4, T("io.max"), T("8:16 0:0 rbps=1"), 22),
	SETTING(0, 4, T("io.max"), T("8:16 rbps=1\n0:0 rbps=1\n"), 22),
	SETTING(0, 4, T("io.max"), T("8:16 rbps=1\n\n"), 22),
	SETTING(0, 4, T("io.max"), T("8:16 1"), 22),
	SETTING(0, 4, T("io.max"), T("8:16 ="), 22),
	SETTING(0, 4, T("io.max"), T("8:16 =1"), 22),
	SETTING(0, 4, T("io.max"), T("8:16 rbps"), 22),
	SETTING(0, 4, T("io.max"), T("8:16 rbps="), 22),
	SETTING(0, 4, T("io.max"), T("8:16 rbps= 1"), 22),
	SETTING(0, 4, T("io.max"), T("8:16 rbps =1"), 22),
	SETTING(0, 4, T("io.max"), T("8:16 rbps==1"), 22),
	SETTING(0, 4, T("io.max"), T("8:16 rbps=1=1"), 22),
	SETTING(0, 4, T("io.max"), T("8:16 rbps=-1"), 22),
	SETTING(0, 4, T("io.max"), T("8:16 rbps=MAX"), 22),
	SETTING(0, 4, T("io.max"), T("8:16 rbps=maxi"), 22),
	SETTING(0, 4, T("io.max"), T("8:16 Rbps=1"), 22),
	SETTING(0, 4, T("io.max"), T("8:16 bps=1"), 22),
	SETTING(0, 4, T("io.max"), T("8:16 rbps\0=1"), 22),
	SETTING(0, 4, T("io.max"), T("8:16 rbps=1\0"), 22),
	SETTING(0, 4, T("io.max"), T("8:16 rbps=1 \xff"), 22),
	SETTING(0, 4, T("io.max"), T("8:16 rbps=1 rbps=1"), 22),
	SETTING(0, 4, T("io.max"), T("8:16 wiops=max riops=1 wiops=max"), 22),
	SETTING(0, 4, T("io.max"), T("8:16 rbps=0 rbps=1"), 22),
	SETTING(0, 4, T("io.max"), T("256:0 rbps=x"), 22),
	SETTING(0, 1, T("io.max"), T("8:16 rbps=0 wbps"), 22),
	SETTING(0, 4, T("io.max"), T("8:16 rbps=" ZEROS_110 "000000001"), 22),
	SETTING(0, 4, T("io.max"), T("8:16 rbps=" ZEROS_110 "00000001\n"), 22),
	SETTING(0, 4, T("io.max"), T(SPACES_120 "     8:16"), 22),
	SETTING(0, 4, T("io.max"), T(FOUR_DEVICES), 22),
	SETTING(0, 4, T("io.max"), T("256:0"), 34),
	SETTING(0, 4, T("io.max"), T("0:256"), 34),
	SETTING(0, 4, T("io.max"), T("264:16 rbps=1"), 34),
	SETTING(0, 4, T("io.max"), T("8:4294967312 rbps=1"), 34),
	SETTING(0, 4, T("io.max"), T("18446744073709551624:16 rbps=1"), 34),
	SETTING(0, 4, T("io.max"), T(ZEROS_120 "256:0"), 34),
	SETTING(0, 4, T("io.max"), T("8:16 rbps=0"), 34),
	SETTING(0, 4, T("io.max"), T("8:16 wbps=4503599627370497"), 34),
	SETTING(0, 4, T("io.max"), T("8:16 riops=18446744073709551617"), 34),
	SETTING(0, 4, T("io.max"), T("8:16 rbps=1 wbps=max wiops=0\n"), 34),
	SETTING(0, 4, T("io.max"), T("8:16 rbps=" ZEROS_110 "00000000"), 34),
	SETTING(0, 4, T("io.max"), T("8:16 rbps=9" ZEROS_110 "0000001"), 34),
	SETTING(0, 1, T("io.max"), T("256:255"), 34),
	SETTING(0, 1, T("io.max"), T("8:16 rbps=0"), 34),
	SETTING(0, 1, T("io.max"), T("0:0 rbps=1"), 28),
	SETTING(0, 1, T("io.max"), T("8:16 rbps=max wiops=120\n"), 28),
	SETTING(0, 1, T("io.max"), T("255:251 wbps=4503599627370496"), 28),
	SETTING(0, 1, T("io.max"), T("0:0"), 0),
	SETTING(0, 1, T("io.max"), T("0:0 wiops=max riops=max wbps=max rbps=max"), 0),
	SETTING(0, 1, T("io.max"), T("255:255"), 0),
	SETTING(0, 1, T("io.max"), T(DEVICE("255:255")), 0),
	SETTING(0, 4, T("io.max"), T("8:16\n"), 0),
	SETTING(0, 4, T("io.max"), T("8:16 rbps=max"), 0),

	/* process, user: number */
	ADMIT(0, 0, 22),
	ADMIT(SS_LAST_PROCESS + 1, 0, 22),
	ADMIT(TWO_16 + 1, 0, 22),
	ADMIT(TWO_32 + 1, 0, 22),
	ADMIT(MOST, NOBODY, 22),
	ADMIT(10, 0, 17),
	ADMIT(20, NOBODY, 17),

	/* parent, process: number, group without room, cgroups consulted */
	FORK(0, 11, 3, NONE, 0),
	FORK(TWO_8 + 20, 11, 3, NONE, 0),
	FORK(SS_LAST_PROCESS, 11, 3, NONE, 0),
	FORK(SS_LAST_PROCESS + 1, 11, 3, NONE, 0),
	FORK(SS_LAST_PROCESS + 20, 11, 3, NONE, 0),
	FORK(TWO_16 + 20, 11, 3, NONE, 0),
	FORK(TWO_32 + 20, 11, 3, NONE, 0),
	FORK(MOST, MOST, 3, NONE, 0),
	FORK(20, 0, 22, NONE, 0),
	FORK(20, SS_LAST_PROCESS + 1, 22, NONE, 0),
	FORK(20, TWO_16 + 11, 22, NONE, 0),
	FORK(20, TWO_32 + 11, 22, NONE, 0),
	FORK(10, MOST, 22, NONE, 0),
	FORK(20, 20, 17, NONE, 0),
	FORK(10, 20, 17, NONE, 0),
	FORK(10, 11, 11, 1, 1),

	/* process: number */
	EXIT(0, 3),
	EXIT(TWO_8 + 10, 3),
	EXIT(SS_LAST_PROCESS, 3),
	EXIT(SS_LAST_PROCESS + 1, 3),
	EXIT(SS_LAST_PROCESS + 10, 3),
	EXIT(TWO_16 + 10, 3),
	EXIT(TWO_32 + 10, 3),
	EXIT(MOST, 3),

	/* process: number */
	COLLECT(0, 3),
	COLLECT(11, 3),
	COLLECT(10, 3),
	COLLECT(20, 3),
	COLLECT(SS_LAST_PROCESS, 3),
	COLLECT(SS_LAST_PROCESS + 1, 3),
	COLLECT(MOST, 3),

	/* process, pages: number, group without room, cgroups consulted */
	CHARGE(0, 1, 3, NONE, 0),
	CHARGE(TWO_8 + 20, 1, 3, NONE, 0),
	CHARGE(SS_LAST_PROCESS, 1, 3, NONE, 0),
	CHARGE(SS_LAST_PROCESS + 1, 0, 3, NONE, 0),
	CHARGE(SS_LAST_PROCESS + 20, 1, 3, NONE, 0),
	CHARGE(TWO_16 + 20, 1, 3, NONE, 0),
	CHARGE(TWO_32 + 20, 1, 3, NONE, 0),
	CHARGE(MOST, MOST, 3, NONE, 0),
	CHARGE(20, 0, 22, NONE, 0),
	CHARGE(20, 1048577, 22, NONE, 0),
	CHARGE(20, TWO_32 + 1, 22, NONE, 0),
	CHARGE(10, MOST, 22, NONE, 0),
	CHARGE(10, 1, 12, 1, 1),
	CHARGE(10, 1048576, 12, 1, 1),
	CHARGE(20, 1023, 12, 0, 1),
	CHARGE(30, 1023, 12, 0, 17),

	/* group, pages: number */
	RELEASE(SS_LAST_GROUP + 1, 1, 22),
	RELEASE(TWO_8 + 1, 1, 22),
	RELEASE(TWO_16 + 1, 1, 22),
	RELEASE(TWO_32 + 1, 1, 22),
	RELEASE(MOST, MOST, 22),
	RELEASE(1, 0, 22),
	RELEASE(1, 1048577, 22),
	RELEASE(1, TWO_32 + 1, 22),
	RELEASE(SS_LAST_GROUP, MOST, 22),
	RELEASE(SS_LAST_GROUP, 1, 2),
	RELEASE(0, 1, 34),
	RELEASE(1, 3, 34),
	RELEASE(1, 1048576, 34),

	/* group, file, room: number, text */
	READ(SS_LAST_GROUP + 1, T("cgroup.procs"), SS_LONGEST_REPLY, 22, T("")),
	READ(TWO_8 + 1, T("cgroup.procs"), SS_LONGEST_REPLY, 22, T("")),
	READ(TWO_16, T("cgroup.procs"), SS_LONGEST_REPLY, 22, T("")),
	READ(TWO_32, T("cgroup.procs"), SS_LONGEST_REPLY, 22, T("")),
	READ(MOST, NO_BYTE_OF("cgroup.procs"), 0, 22, T("")),
	READ(SS_LAST_GROUP, T("cgroup.procs"), SS_LONGEST_REPLY, 2, T("")),
	READ(SS_LAST_GROUP, NO_BYTE_OF("cgroup.procs"), 0, 2, T("")),
	READ(0, NO_BYTE_OF("cgroup.procs"), SS_LONGEST_REPLY, 2, T("")),
	READ(0, NO_BYTE_OF("cgroup.procs"), 0, 2, T("")),
	READ(0, T("cgroup.proc"), SS_LONGEST_REPLY, 2, T("")),
	READ(0, T("cgroup.procs\0"), SS_LONGEST_REPLY, 2, T("")),
	READ(0, T("cgroup.procs\n"), SS_LONGEST_REPLY, 2, T("")),
	READ(0, T("\0"), SS_LONGEST_REPLY, 2, T("")),
	READ(0, T("\xff"), 0, 2, T("")),
	READ(0, T(ZEROS_120 ZEROS_120 ZEROS_10 ZEROS_10 ZEROS_10 ZEROS_10 ZEROS_10 ZEROS_10), 0, 2, T("")),
	READ(0, T("cgroup.events"), 0, 2, T("")),
	READ(0, T("memory.max"), SS_LONGEST_REPLY, 2, T("")),
	READ(0, T("io.max"), SS_LONGEST_REPLY, 2, T("")),
	READ(3, T("cpu.max"), SS_LONGEST_REPLY, 2, T("")),
	READ(3, T("io.max"), 0, 2, T("")),
	READ(1, T("io.max\0"), SS_LONGEST_REPLY, 2, T("")),
	READ(0, T("cgroup.procs"), 0, 28, T("")),
	READ(0, T("cgroup.procs"), 2, 28, T("")),
	READ(0, T("cgroup.controllers"), 18, 28, T("")),
	READ(4, T("cpu.max"), 0, 28, T("")),
	READ(4, T("cpu.max"), 10, 28, T("")),
	READ(1, T("io.max"), 0, 28, T("")),
	READ(1, T("io.max"), 391, 28, T("")),
	READ(1, T("io.max"), 392, 0, T(FOUR_DEVICES)),
	READ(1, T("io.max"), SS_LONGEST_REPLY, 0, T(FOUR_DEVICES)),
	READ(4, T("io.max"), 0, 0, T("")),
	READ(4, T("io.max"), SS_LONGEST_REPLY, 0, T("")),
	READ(0, T("cgroup.controllers"), 19, 0, T("cpu io memory pids\n")),
	READ(0, T("cgroup.procs"), SS_LONGEST_REPLY, 0, T("20\n")),
	READ(1, T("cgroup.subtree_control"), 0, 0, T("")),
	READ(1, T("cgroup.subtree_control"), SS_LONGEST_REPLY, 0, T("")),

	/* process, room: number, text */
	MEMBERSHIP(0, SS_LONGEST_REPLY, 3, T("")),
	MEMBERSHIP(TWO_8 + 20, SS_LONGEST_REPLY, 3, T("")),
	MEMBERSHIP(SS_LAST_PROCESS, SS_LONGEST_REPLY, 3, T("")),
	MEMBERSHIP(SS_LAST_PROCESS + 1, 0, 3, T("")),
	MEMBERSHIP(SS_LAST_PROCESS + 20, SS_LONGEST_REPLY, 3, T("")),
	MEMBERSHIP(TWO_16 + 20, SS_LONGEST_REPLY, 3, T("")),
	MEMBERSHIP(TWO_32 + 20, SS_LONGEST_REPLY, 3, T("")),
	MEMBERSHIP(MOST, 0, 3, T("")),
	MEMBERSHIP(20, 0, 28, T("")),
	MEMBERSHIP(20, 4, 28, T("")),
	MEMBERSHIP(30, 0, 28, T("")),
	MEMBERSHIP(30, 67, 28, T("")),
	MEMBERSHIP(20, 5, 0, T("0::/\n")),
	MEMBERSHIP(30, 68, 0, T("0::/201/202/203/204/205/206/207/208/209/210/211/212/213/214/215/216\n")),

	/* line: place, length */
	WORD(NO_BYTE_OF("x"), 0, 0),
	WORD(T("\n"), 0, 0),
	WORD(T("+cpu \n"), 5, 0),
	WORD(T("+cpu -"), 5, 1),
	WORD(T("+io -io +i"), 8, 2),
	WORD(T("+io.max"), 0, 7),
	WORD(T("+cpu\0"), 0, 5),
	WORD(T("+cpu \0"), 5, 1),
	WORD(T("\xff\n"), 0, 1),
	WORD(T(SPACES_120 "      +"), 126, 1),
	WORD(T(SPACES_120 "   +cpu\n"), 127, 0),
	WORD(T(SPACES_120 "     +cpu"), 129, 0),
	WORD(T(SPACES_120 SPACES_120 SPACES_10 SPACES_10 SPACES_10 SPACES_10 SPACES_10 "      +dsk"), 296, 4),
};

/* These are accepted and must change the tree. */
static const struct row changing[] = {
	MAKE(0, 0, SS_LAST_GROUP, 0),
	MAKE(0, 215, SS_LAST_GROUP, 0),
	REMOVE(0, 3, 0),
	HAND_OVER(0, 1, NOBODY, 0),
	PROCS(0, 4, T("10\n"), 0),
	PROCS(0, 4, T(ZEROS_120 "0000010"), 0),
	PROCS(0, 4, T(ZEROS_120 "0000010\n"), 0),
	CONTROL(0, 0, T(SPACES_120 "    -cpu"), 0),
	CONTROL(0, 0, T("-io"), 0),
	CONTROL(0, 2, T("+io\n"), 0),
	SETTING(0, 4, T("cpu.weight"), T(ZEROS_120 "0000001\n"), 0),
	SETTING(0, 4, T("memory.max"), T("4503599627370496"), 0),
	SETTING(0, 4, T("io.max"), T("8:16 rbps=" ZEROS_110 "00000001"), 0),
	SETTING(0, 4, T("io.max"), T("8:16 rbps=" ZEROS_110 "0000001\n"), 0),
	SETTING(0, 4, T("io.max"), T("  255:0  wiops=1 riops=max wbps=4503599627370496 \n"), 0),
	SETTING(0, 1, T("io.max"), T("0255:00252 wiops=1"), 0),
	SETTING(0, 1, T("io.max"), T("255:254 rbps=max wbps=max riops=max wiops=max"), 0),
	ADMIT(SS_LAST_PROCESS, NOBODY, 0),
	ADMIT(TWO_8 + 10, 0, 0),
	ADMIT(1, 0, 0),
	FORK(30, SS_LAST_PROCESS, 0, NONE, 17),
	FORK(20, TWO_8 + 20, 0, NONE, 1),
	EXIT(10, 0),
	CHARGE(20, 1022, 0, NONE, 1),
	RELEASE(1, 2, 0),
};

/* Of the scene of the last numbers: the group with all processes, its parent, and what its cgroup.procs reads. */
#define CROWD (SS_LAST_GROUP - 1)
#define ABOVE (SS_LAST_GROUP - 2)
#define LISTING { listing, 4013 }
#define LAST_PATH "0::/239/240/241/242/243/244/245/246/247/248/249/250/251/252/253/254"

/* What a zombie's membership line has after the path, once its group was removed. */
#define DELETED " (deleted)\n"

static char listing[SS_LONGEST_REPLY + 1];

/* The same two lists for that scene. */
static const struct row last_same[] = {
	MAKE(0, SS_LAST_GROUP, 1, 11),
	MAKE(0, 0, SS_LAST_GROUP, 17),
	REMOVE(0, CROWD, 16),
	PROCS(0, ABOVE, T("1024"), 16),
	CONTROL(0, CROWD, T("+cpu"), 16),
	CONTROL(0, SS_LAST_GROUP, NO_BYTE_OF("+cpu"), 0),
	ADMIT(SS_LAST_PROCESS, 0, 17),
	ADMIT(SS_LAST_PROCESS + 1, 0, 22),
	FORK(SS_LAST_PROCESS + 1, 1, 3, NONE, 0),
	FORK(SS_LAST_PROCESS, SS_LAST_PROCESS + 1, 22, NONE, 0),
	FORK(1, SS_LAST_PROCESS, 17, NONE, 0),
	EXIT(SS_LAST_PROCESS + 1, 3),
	COLLECT(SS_LAST_PROCESS, 3),
	COLLECT(SS_LAST_PROCESS + 1, 3),
	CHARGE(SS_LAST_PROCESS + 1, 1, 3, NONE, 0),
	CHARGE(SS_LAST_PROCESS, 2000, 12, 239, 16),
	RELEASE(SS_LAST_GROUP, 2, 34),
	READ(CROWD, T("cgroup.procs"), 0, 28, T("")),
	READ(CROWD, T("cgroup.procs"), 4012, 28, T("")),
	READ(CROWD, T("cgroup.procs"), 4013, 0, LISTING),
	READ(CROWD, T("pids.current"), 5, 0, T("1024\n")),
	READ(SS_LAST_GROUP, T("cgroup.procs"), 0, 0, T("")),
	READ(SS_LAST_GROUP, T("memory.current"), 5, 0, T("4096\n")),
	MEMBERSHIP(SS_LAST_PROCESS + 1, 68, 3, T("")),
	MEMBERSHIP(SS_LAST_PROCESS, 67, 28, T("")),
	MEMBERSHIP(SS_LAST_PROCESS, 68, 0, T(LAST_PATH "\n")),
};

static const struct row last_changing[] = {
	MAKE(0, ABOVE, 1, 0),
	REMOVE(0, SS_LAST_GROUP, 0),
	HAND_OVER(0, SS_LAST_GROUP, NOBODY, 0),
	PROCS(0, SS_LAST_GROUP, T("1024"), 0),
	CONTROL(0, SS_LAST_GROUP, T("+cpu"), 0),
	SETTING(0, SS_LAST_GROUP, T("cpu.weight"), T("1"), 0),
	EXIT(SS_LAST_PROCESS, 0),
	CHARGE(SS_LAST_PROCESS, 1999, 0, NONE, 17),
	RELEASE(SS_LAST_GROUP, 1, 0),
};

/* The same two lists when all has ended. The numbers are taken, but that of the group without processes. */
static const struct row ended_same[] = {
	MAKE(0, 0, 239, 17),
	MAKE(NOBODY, 0, CROWD, 17),
	MAKE(0, 239, 1, 2),
	MAKE(0, CROWD, 239, 2),
	REMOVE(0, CROWD, 2),
	REMOVE(0, SS_LAST_GROUP, 2),
	PROCS(0, 0, T("1"), 3),
	PROCS(0, 0, T("1024"), 3),
	ADMIT(1, 0, 17),
	ADMIT(SS_LAST_PROCESS, 0, 17),
	ADMIT(SS_LAST_PROCESS + 1, 0, 22),
	FORK(SS_LAST_PROCESS, 1, 3, NONE, 0),
	EXIT(SS_LAST_PROCESS, 3),
	COLLECT(0, 3),
	COLLECT(SS_LAST_PROCESS + 1, 3),
	COLLECT(SS_LAST_PROCESS + 2, 3),
	COLLECT(TWO_16 + 1, 3),
	COLLECT(TWO_32 + 1, 3),
	COLLECT(MOST, 3),
	CHARGE(SS_LAST_PROCESS, 1, 3, NONE, 0),
	RELEASE(239, 1, 2),
	READ(239, T("pids.current"), SS_LONGEST_REPLY, 2, T("")),
	READ(CROWD, T("cgroup.procs"), SS_LONGEST_REPLY, 2, T("")),
	READ(0, T("cgroup.procs"), 0, 0, T("")),
	MEMBERSHIP(SS_LAST_PROCESS + 1, 78, 3, T("")),
	MEMBERSHIP(SS_LAST_PROCESS, 0, 28, T("")),
	MEMBERSHIP(SS_LAST_PROCESS, 68, 28, T("")),
	MEMBERSHIP(SS_LAST_PROCESS, 77, 28, T("")),
	MEMBERSHIP(SS_LAST_PROCESS, 78, 0, T(LAST_PATH DELETED)),
	MEMBERSHIP(1, SS_LONGEST_REPLY, 0, T(LAST_PATH DELETED)),
};

static const struct row ended_changing[] = {
	MAKE(0, 0, SS_LAST_GROUP, 0),
	CONTROL(0, 0, T("-cpu -io -memory -pids"), 0),
	COLLECT(1, 0),
	COLLECT(SS_LAST_PROCESS, 0),
	RELEASE(0, 1, 0),
};

/* And those of the scene with zombies beside the live. */
static const struct row zombies_same[] = {
	MAKE(0, 0, TWO_8 + 216, 22),
	MAKE(0, 201, 202, 2),
	MAKE(0, 216, 201, 2),
	MAKE(0, 5, 8, 2),
	MAKE(NOBODY, 6, 5, 2),
	MAKE(0, 0, 201, 17),
	MAKE(0, 0, 208, 17),
	MAKE(0, 0, 216, 17),
	MAKE(0, 4, 5, 17),
	MAKE(0, 4, 6, 17),
	MAKE(0, 0, 4, 17),
	MAKE(NOBODY, 0, 216, 17),
	MAKE(NOBODY, 0, 7, 13),
	REMOVE(0, 201, 2),
	REMOVE(0, 216, 2),
	REMOVE(NOBODY, 6, 2),
	REMOVE(0, 7, 2),
	REMOVE(1000, 2, 13),
	REMOVE(0, 1, 16),
	HAND_OVER(0, 216, 1000, 2),
	HAND_OVER(NOBODY, 5, NOBODY, 2),
	PROCS(0, 216, T("10"), 2),
	PROCS(0, 6, T("14"), 2),
	PROCS(NOBODY, 2, T("11"), 13),
	PROCS(0, 0, T("1"), 3),
	PROCS(0, 2, T("11"), 3),
	PROCS(0, 2, T("12"), 3),
	PROCS(0, 0, T("14"), 3),
	PROCS(0, 0, T("15"), 3),
	PROCS(0, 0, T("30"), 3),
	PROCS(1000, 1, T("11"), 3),
	CONTROL(0, 201, T("-cpu"), 2),
	CONTROL(NOBODY, 5, T("x"), 2),
	CONTROL(0, 1, T("+cpu"), 16),
	SETTING(0, 201, T("cpu.weight"), T("1"), 2),
	SETTING(NOBODY, 6, T("io.max"), NO_BYTE_OF("8:16"), 2),
	ADMIT(1, 0, 17),
	ADMIT(11, 0, 17),
	ADMIT(14, NOBODY, 17),
	ADMIT(30, 0, 17),
	FORK(1, 15, 3, NONE, 0),
	FORK(11, 15, 3, NONE, 0),
	FORK(30, 0, 3, NONE, 0),
	FORK(30, 30, 3, NONE, 0),
	FORK(15, 15, 3, NONE, 0),
	FORK(20, 1, 17, NONE, 0),
	FORK(20, 14, 17, NONE, 0),
	FORK(20, 30, 17, NONE, 0),
	FORK(16, 11, 17, NONE, 0),
	FORK(16, 15, 11, 3, 1),
	EXIT(1, 3),
	EXIT(11, 3),
	EXIT(15, 3),
	EXIT(30, 3),
	COLLECT(0, 3),
	COLLECT(10, 3),
	COLLECT(15, 3),
	COLLECT(20, 3),
	COLLECT(TWO_8 + 11, 3),
	COLLECT(SS_LAST_PROCESS, 3),
	COLLECT(SS_LAST_PROCESS + 1, 3),
	COLLECT(SS_LAST_PROCESS + 11, 3),
	COLLECT(TWO_16 + 11, 3),
	COLLECT(TWO_32 + 11, 3),
	COLLECT(MOST, 3),
	CHARGE(1, 1, 3, NONE, 0),
	CHARGE(11, 0, 3, NONE, 0),
	CHARGE(30, 1, 3, NONE, 0),
	RELEASE(216, 0, 22),
	RELEASE(216, 1, 2),
	READ(216, T("cgroup.procs"), 0, 2, T("")),
	READ(201, T("cgroup.events"), SS_LONGEST_REPLY, 2, T("")),
	READ(6, T("pids.current"), SS_LONGEST_REPLY, 2, T("")),
	READ(0, T("cgroup.procs"), 3, 0, T("20\n")),
	READ(1, T("cgroup.procs"), 3, 0, T("10\n")),
	READ(1, T("cgroup.events"), 12, 0, T("populated 1\n")),
	READ(1, T("pids.current"), 2, 0, T("1\n")),
	READ(2, T("cgroup.procs"), 0, 0, T("")),
	READ(2, T("cgroup.events"), 12, 0, T("populated 0\n")),
	READ(2, T("pids.current"), 2, 0, T("0\n")),
	READ(4, T("cgroup.events"), 12, 0, T("populated 0\n")),
	READ(4, T("pids.current"), 2, 0, T("0\n")),
	MEMBERSHIP(15, SS_LONGEST_REPLY, 3, T("")),
	MEMBERSHIP(TWO_8 + 11, SS_LONGEST_REPLY, 3, T("")),
	MEMBERSHIP(TWO_16 + 30, SS_LONGEST_REPLY, 3, T("")),
	MEMBERSHIP(TWO_32 + 30, 0, 3, T("")),
	MEMBERSHIP(1, 4, 28, T("")),
	MEMBERSHIP(1, 5, 0, T("0::/\n")),
	MEMBERSHIP(11, 5, 28, T("")),
	MEMBERSHIP(11, 6, 0, T("0::/1\n")),
	MEMBERSHIP(14, 0, 28, T("")),
	MEMBERSHIP(14, 10, 28, T("")),
	MEMBERSHIP(14, 19, 28, T("")),
	MEMBERSHIP(14, 20, 0, T("0::/4/5/6" DELETED)),
	MEMBERSHIP(30, 67, 28, T("")),
	MEMBERSHIP(30, 68, 28, T("")),
	MEMBERSHIP(30, 77, 28, T("")),
	MEMBERSHIP(30, 78, 0, T("0::/201/202/203/204/205/206/207/208/209/210/211/212/213/214/215/216" DELETED)),
};

static const struct row zombies_changing[] = {
	MAKE(0, 0, 7, 0),
	MAKE(0, 2, 7, 0),
	REMOVE(0, 2, 0),
	REMOVE(0, 4, 0),
	PROCS(0, 2, T("10"), 0),
	CONTROL(0, 2, T("+cpu"), 0),
	ADMIT(15, 0, 0),
	FORK(10, 15, 0, NONE, 2),
	FORK(20, 15, 0, NONE, 1),
	EXIT(10, 0),
	EXIT(20, 0),
	COLLECT(1, 0),
	COLLECT(11, 0),
	COLLECT(12, 0),
	COLLECT(13, 0),
	COLLECT(14, 0),
	COLLECT(30, 0),
};

/* What calls are lent, and around it what they are not. */
struct lent {
	uint64_t before_tree[8];
	uint64_t tree[SS_TREE_WORDS];
	uint64_t before_told[8];
	uint64_t told[2];
	uint8_t before_reply[64];
	uint8_t reply[SS_LONGEST_REPLY];
	uint8_t after_reply[64 - SS_LONGEST_REPLY % 8]; /* up to a word's end */
};

static struct lent scene, lent, expected;
static int calls, failures;

static void make_scene(void)
{
	static const char *const devices[] = { DEVICE("255:254"), DEVICE("255:252"), DEVICE("255:255"), DEVICE("255:253") };
	const uint8_t *all = (const uint8_t *)"+cpu +io +memory +pids";
	uint64_t *tree = scene.tree;

	memset(&scene, 0xa5, sizeof scene);
	ss_fresh(tree, 1024);
	ss_write_subtree_control(tree, ss_u(0), ss_g(0), all, strlen((const char *)all));
	ss_make(tree, ss_u(0), ss_g(0), ss_g(1));
	ss_make(tree, ss_u(0), ss_g(0), ss_g(2));
	ss_make(tree, ss_u(0), ss_g(2), ss_g(3));
	ss_make(tree, ss_u(0), ss_g(0), ss_g(4));
	ss_make(tree, ss_u(0), ss_g(0), ss_g(201));
	for (uint64_t group = 202; group <= 216; group++)
		ss_make(tree, ss_u(0), ss_g(group - 1), ss_g(group));
	ss_hand_over(tree, ss_u(0), ss_g(1), ss_u(1000));
	ss_hand_over(tree, ss_u(0), ss_g(2), ss_u(1000));
	ss_hand_over(tree, ss_u(0), ss_g(4), ss_u(1000));
	ss_admit(tree, ss_p(10), ss_u(1000));
	ss_admit(tree, ss_p(20), ss_u(2000));
	ss_admit(tree, ss_p(30), ss_u(1000));
	ss_write_subtree_control(tree, ss_u(0), ss_g(2), (const uint8_t *)"+memory", 7);
	ss_write_procs(tree, ss_u(0), ss_g(1), (const uint8_t *)"10", 2);
	ss_write_procs(tree, ss_u(0), ss_g(216), (const uint8_t *)"30", 2);
	ss_write_setting(tree, ss_u(0), ss_g(1), (const uint8_t *)"memory.max", 10, (const uint8_t *)"8192", 4);
	ss_write_setting(tree, ss_u(0), ss_g(1), (const uint8_t *)"pids.max", 8, (const uint8_t *)"1", 1);
	for (size_t i = 0; i < SS_MAX_DEVICES; i++)
		ss_write_setting(tree, ss_u(0), ss_g(1), (const uint8_t *)"io.max", 6, (const uint8_t *)devices[i], strlen(devices[i]));
	ss_charge(tree, ss_p(10), 2, scene.told);
	memset(scene.told, 0xa5, sizeof scene.told);
}

static void make_last_scene(void)
{
	const uint8_t *all = (const uint8_t *)"+cpu +io +memory +pids";
	uint64_t *tree = scene.tree;
	size_t length = 0;

	memset(&scene, 0xa5, sizeof scene);
	ss_fresh(tree, 3000);
	for (uint64_t above = 0, group = SS_LAST_GROUP - SS_MAX_DEPTH; group <= CROWD; above = group++) {
		ss_write_subtree_control(tree, ss_u(0), ss_g(above), all, strlen((const char *)all));
		ss_make(tree, ss_u(0), ss_g(above), ss_g(group));
	}
	ss_make(tree, ss_u(0), ss_g(ABOVE), ss_g(SS_LAST_GROUP));
	for (uint64_t process = 1; process <= SS_LAST_PROCESS; process++) {
		char *line = listing + length;

		length += (size_t)snprintf(line, sizeof listing - length, "%d\n", (int)process);
		ss_admit(tree, ss_p(process), ss_u(1000));
		ss_write_procs(tree, ss_u(0), ss_g(CROWD), (const uint8_t *)line, strlen(line));
	}
	ss_write_procs(tree, ss_u(0), ss_g(SS_LAST_GROUP), (const uint8_t *)"1", 1);
	ss_charge(tree, ss_p(1), 1, scene.told);
	ss_write_procs(tree, ss_u(0), ss_g(CROWD), (const uint8_t *)"1", 1);
	ss_write_setting(tree, ss_u(0), ss_g(239), (const uint8_t *)"memory.max", 10, (const uint8_t *)"8192000", 7);
	memset(scene.told, 0xa5, sizeof scene.told);
}

/* Ends every process of that scene and removes every group. */
static void end_last_scene(void)
{
	uint64_t *tree = scene.tree;

	for (uint64_t process = 1; process <= SS_LAST_PROCESS; process++)
		ss_exit(tree, ss_p(process));
	for (uint64_t group = SS_LAST_GROUP; group >= SS_LAST_GROUP - SS_MAX_DEPTH; group--)
		ss_remove(tree, ss_u(0), ss_g(group));
}

static void begin_in(uint64_t *tree, uint64_t process, uint64_t group)
{
	char line[24];

	snprintf(line, sizeof line, "%d", (int)process);
	ss_admit(tree, ss_p(process), ss_u(1000));
	ss_write_procs(tree, ss_u(0), ss_g(group), (const uint8_t *)line, strlen(line));
}

static void make_zombie_scene(void)
{
	static const struct {
		uint64_t process, group;
	} ending[] = { { 1, 0 }, { 11, 1 }, { 12, 2 }, { 13, 2 }, { 14, 6 }, { 30, 216 }, { 15, 7 } };
	static const uint64_t removed[] = { 6, 5, 7 };
	const uint8_t *all = (const uint8_t *)"+cpu +io +memory +pids";
	uint64_t *tree = scene.tree;

	memset(&scene, 0xa5, sizeof scene);
	ss_fresh(tree, 1024);
	ss_write_subtree_control(tree, ss_u(0), ss_g(0), all, strlen((const char *)all));
	ss_make(tree, ss_u(0), ss_g(0), ss_g(1));
	ss_make(tree, ss_u(0), ss_g(0), ss_g(2));
	ss_make(tree, ss_u(0), ss_g(0), ss_g(3));
	ss_make(tree, ss_u(0), ss_g(0), ss_g(4));
	ss_make(tree, ss_u(0), ss_g(4), ss_g(5));
	ss_make(tree, ss_u(0), ss_g(5), ss_g(6));
	ss_make(tree, ss_u(0), ss_g(0), ss_g(7));
	ss_make(tree, ss_u(0), ss_g(0), ss_g(201));
	for (uint64_t group = 202; group <= 216; group++)
		ss_make(tree, ss_u(0), ss_g(group - 1), ss_g(group));
	ss_hand_over(tree, ss_u(0), ss_g(1), ss_u(1000));
	begin_in(tree, 10, 1);
	begin_in(tree, 16, 3);
	ss_admit(tree, ss_p(20), ss_u(2000));
	for (size_t i = 0; i < COUNT(ending); i++) {
		begin_in(tree, ending[i].process, ending[i].group);
		ss_exit(tree, ss_p(ending[i].process));
	}
	for (size_t i = 0; i < COUNT(removed); i++)
		ss_remove(tree, ss_u(0), ss_g(removed[i]));
	for (uint64_t group = 216; group >= 201; group--)
		ss_remove(tree, ss_u(0), ss_g(group));
	ss_collect(tree, ss_p(15));
	ss_write_setting(tree, ss_u(0), ss_g(1), (const uint8_t *)"pids.max", 8, (const uint8_t *)"2", 1);
	ss_write_setting(tree, ss_u(0), ss_g(3), (const uint8_t *)"pids.max", 8, (const uint8_t *)"1", 1);
}

static void differs(const char *shown, int is_null, const char *what)
{
	printf("%s%s: %s\n", shown, is_null ? " (NULL)" : "", what);
	failures++;
}

static int has_reply(const struct row *row)
{
	return row->call == READ || row->call == MEMBERSHIP;
}

static int has_empty(const struct row *row)
{
	return (row->line.at && row->line.length == 0) || (row->file.at && row->file.length == 0) || (has_reply(row) && row->room == 0);
}

static uint32_t answer(const struct row *row, int is_null)
{
	const uint8_t *file = is_null && row->file.length == 0 ? NULL : (const uint8_t *)row->file.at;
	const uint8_t *line = is_null && row->line.length == 0 ? NULL : (const uint8_t *)row->line.at;
	uint8_t *reply = is_null && row->room == 0 ? NULL : lent.reply;
	ss_user user = ss_u(row->user);

	switch (row->call) {
	case MAKE:
		return ss_make(lent.tree, user, ss_g(row->first), ss_g(row->second));
	case REMOVE:
		return ss_remove(lent.tree, user, ss_g(row->first));
	case HAND_OVER:
		return ss_hand_over(lent.tree, user, ss_g(row->first), ss_u(row->owner));
	case PROCS:
		return ss_write_procs(lent.tree, user, ss_g(row->first), line, row->line.length);
	case CONTROL:
		return ss_write_subtree_control(lent.tree, user, ss_g(row->first), line, row->line.length);
	case SETTING:
		return ss_write_setting(lent.tree, user, ss_g(row->first), file, row->file.length, line, row->line.length);
	case ADMIT:
		return ss_admit(lent.tree, ss_p(row->first), user);
	case FORK:
		return ss_fork(lent.tree, ss_p(row->first), ss_p(row->second), lent.told);
	case EXIT:
		return ss_exit(lent.tree, ss_p(row->first));
	case COLLECT:
		return ss_collect(lent.tree, ss_p(row->first));
	case CHARGE:
		return ss_charge(lent.tree, ss_p(row->first), row->second, lent.told);
	case RELEASE:
		return ss_release(lent.tree, ss_g(row->first), row->second);
	case READ:
		return ss_read(lent.tree, ss_g(row->first), file, row->file.length, reply, row->room, lent.told);
	case MEMBERSHIP:
		return ss_membership(lent.tree, ss_p(row->first), reply, row->room, lent.told);
	case WORD:
		ss_first_bad_word(line, row->line.length, lent.told);
		return 0;
	}
	return UINT32_MAX;
}

static void check(const struct row *row, int changes, int is_null)
{
	uint32_t number;

	memcpy(&lent, &scene, sizeof scene);
	memcpy(&expected, &scene, sizeof scene);
	memcpy(expected.told, row->told, row->tells * sizeof row->told[0]);
	if (has_reply(row)) {
		expected.told[0] = row->text.length;
		memcpy(expected.reply, row->text.at, row->text.length);
	}

	number = answer(row, is_null);
	calls++;
	if (number != row->number) {
		differs(row->shown, is_null, "another number");
		printf("\tanswered %" PRIu32 ", not %" PRIu32 "\n", number, row->number);
	}
	if (changes) {
		if (memcmp(lent.tree, scene.tree, sizeof lent.tree) == 0)
			differs(row->shown, is_null, "the tree is the same");
		memcpy(expected.tree, lent.tree, sizeof lent.tree);
	}
	if (memcmp(lent.told, expected.told, sizeof lent.told) != 0) {
		differs(row->shown, is_null, "told differs");
		printf("\ttold %" PRIu64 " and %" PRIu64 ", not %" PRIu64 " and %" PRIu64 "\n", lent.told[0], lent.told[1],
		       expected.told[0], expected.told[1]);
	}
	if (memcmp(lent.tree, expected.tree, sizeof lent.tree) != 0)
		differs(row->shown, is_null, "the tree differs");
	if (memcmp(lent.reply, expected.reply, sizeof lent.reply) != 0)
		differs(row->shown, is_null, "the reply buffer differs");
	if (memcmp(lent.before_tree, expected.before_tree, sizeof lent.before_tree) != 0 ||
	    memcmp(lent.before_told, expected.before_told, sizeof lent.before_told) != 0 ||
	    memcmp(lent.before_reply, expected.before_reply, sizeof lent.before_reply) != 0 ||
	    memcmp(lent.after_reply, expected.after_reply, sizeof lent.after_reply) != 0)
		differs(row->shown, is_null, "memory that it was not lent differs");
}

static void check_all(const struct row *rows, size_t count, int changes)
{
	for (size_t i = 0; i < count; i++) {
		check(&rows[i], changes, 0);
		if (has_empty(&rows[i]))
			check(&rows[i], changes, 1);
	}
}

/* A fresh tree is the same whatever was there before, and a larger machine is one of 2^40 pages. */
static void check_fresh(void)
{
	static const struct {
		const char *shown;
		uint64_t pages, counts_as;
	} rows[] = {
		{ "ss_fresh 0", 0, 0 },
		{ "ss_fresh 2^32", TWO_32, TWO_32 },
		{ "ss_fresh 2^40", SS_MAX_MACHINE_PAGES, SS_MAX_MACHINE_PAGES },
		{ "ss_fresh 2^40 + 1", SS_MAX_MACHINE_PAGES + 1, SS_MAX_MACHINE_PAGES },
		{ "ss_fresh 2^64 - 1", MOST, SS_MAX_MACHINE_PAGES },
	};

	for (size_t i = 0; i < COUNT(rows); i++) {
		memcpy(&lent, &scene, sizeof scene);
		memcpy(&expected, &scene, sizeof scene);
		memset(expected.tree, 0xff, sizeof expected.tree);
		ss_fresh(lent.tree, rows[i].pages);
		ss_fresh(expected.tree, rows[i].counts_as);
		calls++;
		if (memcmp(lent.tree, scene.tree, sizeof lent.tree) == 0)
			differs(rows[i].shown, 0, "the tree is the same");
		if (memcmp(&lent, &expected, sizeof lent) != 0)
			differs(rows[i].shown, 0, "the tree differs, or memory that it was not lent");
	}
	calls++;
	if (ss_tree_words() != SS_TREE_WORDS)
		differs("ss_tree_words", 0, "not SS_TREE_WORDS");
}

int main(void)
{
	make_scene();
	check_all(same, COUNT(same), 0);
	check_all(changing, COUNT(changing), 1);
	make_last_scene();
	check_all(last_same, COUNT(last_same), 0);
	check_all(last_changing, COUNT(last_changing), 1);
	end_last_scene();
	check_all(ended_same, COUNT(ended_same), 0);
	check_all(ended_changing, COUNT(ended_changing), 1);
	make_zombie_scene();
	check_all(zombies_same, COUNT(zombies_same), 0);
	check_all(zombies_changing, COUNT(zombies_changing), 1);
	check_fresh();
	if (failures > 0) {
		printf("%d differences in %d calls\n", failures, calls);
		return 1;
	}
	printf("%d calls, each with its number and nothing touched\n", calls);
	return 0;
}
