#include <stdio.h>
#include "shootspiral.h"
#define BYTES(text) (const uint8_t *)(text), sizeof(text) - 1
int main(void)
{
	static uint64_t tree[SS_TREE_WORDS];                                          /* 148 KB, so not on the stack */
	uint64_t told[2];
	ss_fresh(tree, 1024);                                                         /* a machine of 1024 pages */
	ss_write_subtree_control(tree, ss_u(0), ss_g(0), BYTES("+memory"));           /* user 0: limits act below the root */
	ss_make(tree, ss_u(0), ss_g(0), ss_g(1));                                     /* and makes group 1 there */
	ss_write_setting(tree, ss_u(0), ss_g(1), BYTES("memory.max"), BYTES("8192")); /* which gets two pages */
	ss_admit(tree, ss_p(10), ss_u(1001));                                         /* process 10 begins, of user 1001 */
	ss_write_procs(tree, ss_u(0), ss_g(1), BYTES("10"));                          /* and is moved into group 1 */
	printf("charge two pages: %u\n", ss_charge(tree, ss_p(10), 2, told));
	printf("charge one more: %u\n", ss_charge(tree, ss_p(10), 1, told));          /* 12 is SS_ENOMEM */
	printf("group %d has no room, groups consulted: %d\n", (int)told[0], (int)told[1]);
}
