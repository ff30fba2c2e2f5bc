/*
 * What the library calls in the place of memcpy where scripts/test-c links tests/edges.c with it: no copy is of no byte, since each
 * stands behind a test of its length (D68).
 */
#include <stdio.h>
#include <stdlib.h>
#include <string.h>

void *copied(void *to, const void *from, size_t length);

void *copied(void *to, const void *from, size_t length)
{
	if (length == 0) {
		fputs("memcpy is called for no byte\n", stderr);
		exit(1);
	}
	return memcpy(to, from, length);
}
