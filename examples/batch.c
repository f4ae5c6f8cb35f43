/*
 * Two wires: the operator's records arrive at the service port and a host's at the host port, each lot performed with
 * one check of the card. They are the ten records of the example in document 01, the second as request 2026-02 has it,
 * and one more: the host sends a record of the service port, which does not exist at its port.
 *
 *   cc -I include examples/batch.c path/to/libinterface.a -o batch && ./batch
 *
 * Its output is stored in batch.expected.
 */
#include <stdio.h>
#include "negvask.h"

#define BLOCKS NEGVASK_BLOCKS_MIN
#define BYTES  NEGVASK_BLOCK_BYTES_MIN
#define PLACES 32

NEGVASK_STORAGE(card, BLOCKS, BYTES, PLACES);
#define CARD NEGVASK_LEND(&card)

#define ZEROS_8  0, 0, 0, 0, 0, 0, 0, 0
#define NOTHING  0, ZEROS_8, ZEROS_8
#define BY_0     1, 0, 0, 0, 0, 0, 0, 0, 0, ZEROS_8
#define DELETE_2 133, 0, 0, NOTHING, 0, 2                                 /* service DELETE 0 to 2 */

static const uint8_t allot[] = {
	131, 0, 0, NOTHING, 255, 255, 2,                                  /* service ALLOC at 0, no hint, count 2 */
	134, 0, 1, NOTHING, 1, ZEROS_8, ZEROS_8,                          /* service KEY_READ of 1 */
};

static const uint8_t host[] = {
	1, 0, 1, NOTHING, 0, 0, 0, 0,                                     /* READ 1, nothing, 0 */
	9,                                                                /* FREE */
	1, 0, 0, NOTHING, 0, 0, 0, 10,                                    /* READ 0, nothing, 10 */
	1, 0, 2, BY_0, 0, 0, 0, 0,                                        /* READ 2 by reference 0, 0 */
	10, 0, 0, 0, 0, 0, 0, 0, 10,                                      /* TICK 10 */
	1, 0, 2, BY_0, 0, 0, 0, 0,                                        /* that READ of 2 again */
	DELETE_2,
};

static const uint8_t clear[] = {
	DELETE_2,
	9,                                                                /* FREE */
};

/*
 * Performs the bytes that arrived at a port, into a buffer of so many bytes; how many of them were performed. The port
 * goes by the wire alone.
 */
static size_t serve(uint8_t port, const uint8_t *input, size_t len, size_t room)
{
	static uint8_t answers[4096];
	uint64_t records = 0, read = 0, written = 0, free_blocks = 0;
	uint32_t stop = negvask_batch(CARD, port, input, len, answers, room, &records, &read, &written);

	negvask_count_free(CARD, &free_blocks);
	printf("%s: %lu records, %lu bytes of answers, first %u, stopped by %u; %lu blocks free\n",
		port == NEGVASK_HOST ? "host" : "service", (unsigned long)records, (unsigned long)written,
		(unsigned)answers[0], (unsigned)stop, (unsigned long)free_blocks);
	return (size_t)read;
}

int main(void)
{
	size_t read;

	negvask_format(CARD, BLOCKS, NEGVASK_ROOTS_MIN, BYTES);
	serve(NEGVASK_SERVICE, allot, sizeof allot, 4096);
	/* Room for all but the second READ that is done: the batch stops before it and goes on with the next buffer. */
	read = serve(NEGVASK_HOST, host, sizeof host, 600);
	/* What came before the service record is performed; block 2 is still there. */
	serve(NEGVASK_HOST, host + read, sizeof host - read, 4096);
	/* Block 2 is freed here, and waits: no more blocks are free than before. */
	serve(NEGVASK_SERVICE, clear, sizeof clear, 4096);
	printf("audit %u\n", (unsigned)negvask_audit(CARD));
	return 0;
}
