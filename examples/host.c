/*
 * A short host: formats a card, has a block allotted and keyed by the service port, then writes and reads as a host,
 * by key and by reference within a window, which a shorter poll does not cut, and is refused once the window has ended.
 * It sets the read key of a new season, takes a run of blocks for an event file, points twice to the same block, clears
 * a directory with all that is in it by one call, has the freed blocks overwritten, and asks for the rent after a day.
 *
 *   cc -I include examples/host.c path/to/libinterface.a -o host && ./host
 *
 * Its output is stored in host.expected.
 */
#include <stdio.h>
#include <string.h>
#include "negvask.h"

#define BLOCKS NEGVASK_BLOCKS_MIN
#define BYTES  NEGVASK_BLOCK_BYTES_MIN
#define PLACES 32

NEGVASK_STORAGE(card, BLOCKS, BYTES, PLACES);
#define CARD NEGVASK_LEND(&card)

/* The two keys of the observatory. */
#define READ_HIGH  0x0123456789ABCDEFu
#define READ_LOW   0x0000000000000001u
#define WRITE_HIGH 0x0123456789ABCDEFu
#define WRITE_LOW  0x0000000000000002u
/* Its read key of the next season. */
#define NEXT_HIGH  0x0123456789ABCDEFu
#define NEXT_LOW   0x0000000000000003u

/* The most blocks that are overwritten by one call. */
#define PORTION 3

static void show(const char *what, uint32_t answer)
{
	printf("%-44s %u\n", what, (unsigned)answer);
}

int main(void)
{
	uint16_t places[2] = { 0, 0 }, file[6] = { 0 }, days[2] = { 0, 0 };
	const struct negvask_credential nothing = negvask_by_nothing();
	const struct negvask_credential root = negvask_by_reference(0);
	const struct negvask_credential reader = negvask_by_key(READ_HIGH, READ_LOW);
	const struct negvask_credential writer = negvask_by_key(WRITE_HIGH, WRITE_LOW);
	const struct negvask_credential next_reader = negvask_by_key(NEXT_HIGH, NEXT_LOW);
	const struct negvask_new_key read_key = negvask_set_key(READ_HIGH, READ_LOW);
	const struct negvask_new_key write_key = negvask_set_key(WRITE_HIGH, WRITE_LOW);
	const struct negvask_new_key next_read_key = negvask_set_key(NEXT_HIGH, NEXT_LOW);
	struct negvask_credential directory;
	uint8_t data[BYTES] = { 0 }, out[BYTES] = { 0 };
	uint64_t value = 0;
	uint32_t answer;

	show("format, 16 blocks, 1 root, 512 bytes", negvask_format(CARD, BLOCKS, NEGVASK_ROOTS_MIN, BYTES));

	/* The service port allots two blocks below the root and gives the first both keys. */
	show("service: allot 2 blocks below root 0",
		negvask_alloc(CARD, NEGVASK_SERVICE, 0, NEGVASK_BYTES(nothing), NEGVASK_NO_HINT, 2, places, 2));
	printf("  blocks %u and %u\n", (unsigned)places[0], (unsigned)places[1]);
	show("service: set the read key of the first",
		negvask_key_read(CARD, NEGVASK_SERVICE, places[0], NEGVASK_BYTES(nothing), NEGVASK_BYTES(read_key)));
	show("service: set its write key",
		negvask_key_write(CARD, NEGVASK_SERVICE, places[0], NEGVASK_BYTES(nothing), NEGVASK_BYTES(write_key)));
	memcpy(data, "listing of the second block", 28);
	show("service: write the second block",
		negvask_write(CARD, NEGVASK_SERVICE, places[1], NEGVASK_BYTES(nothing), 0, data, BYTES));

	/* The host writes and reads the first block by its keys. */
	memset(data, 0, sizeof data);
	memcpy(data, "waveform 17", 12);
	show("host: write the first by its write key",
		negvask_write(CARD, NEGVASK_HOST, places[0], NEGVASK_BYTES(writer), 0, data, BYTES));
	show("host: read it by its read key",
		negvask_read(CARD, NEGVASK_HOST, places[0], NEGVASK_BYTES(reader), 0, out, BYTES));
	printf("  \"%s\"\n", (const char *)out);
	show("host: write it by its read key",
		negvask_write(CARD, NEGVASK_HOST, places[0], NEGVASK_BYTES(reader), 0, data, BYTES));

	/* A new season: the write key, and not the read key, sets another read key. The write key stays as it is. */
	show("host: set a new read key by the read key",
		negvask_key_read(CARD, NEGVASK_HOST, places[0], NEGVASK_BYTES(reader), NEGVASK_BYTES(next_read_key)));
	show("host: set a new read key by the write key",
		negvask_key_read(CARD, NEGVASK_HOST, places[0], NEGVASK_BYTES(writer), NEGVASK_BYTES(next_read_key)));
	show("host: read it by the last season's key",
		negvask_read(CARD, NEGVASK_HOST, places[0], NEGVASK_BYTES(reader), 0, out, BYTES));
	memcpy(data, "waveform 18", 12);
	show("host: write it by its write key",
		negvask_write(CARD, NEGVASK_HOST, places[0], NEGVASK_BYTES(writer), 0, data, BYTES));
	show("host: read it by its new read key",
		negvask_read(CARD, NEGVASK_HOST, places[0], NEGVASK_BYTES(next_reader), 0, out, BYTES));
	printf("  \"%s\"\n", (const char *)out);

	/* The second block has no key: it is read by reference to the root, while the root's read window is open. */
	show("host: read the second by reference to root 0",
		negvask_read(CARD, NEGVASK_HOST, places[1], NEGVASK_BYTES(root), 0, out, BYTES));
	show("host: read root 0, window of 10 seconds",
		negvask_read(CARD, NEGVASK_HOST, 0, NEGVASK_BYTES(nothing), 10, out, BYTES));
	/* A status poll by a shorter interval meanwhile leaves the window as it is. */
	show("host: poll root 0, window of 5 seconds",
		negvask_read(CARD, NEGVASK_HOST, 0, NEGVASK_BYTES(nothing), 5, out, BYTES));
	answer = negvask_tick(CARD, 9, &value);
	show("9 seconds pass", answer);
	show("host: read the second by reference again",
		negvask_read(CARD, NEGVASK_HOST, places[1], NEGVASK_BYTES(root), 0, out, BYTES));
	printf("  \"%s\" at time %lu\n", (const char *)out, (unsigned long)value);
	answer = negvask_tick(CARD, 1, &value);
	show("1 second passes", answer);
	memset(out, 0, sizeof out);
	show("host: read the second by reference again",
		negvask_read(CARD, NEGVASK_HOST, places[1], NEGVASK_BYTES(root), 0, out, BYTES));
	printf("  refused and \"%s\" read at time %lu\n", (const char *)out, (unsigned long)value);

	/* An event file takes three blocks that adjoin, from block 8 on if these are free. */
	show("host: allot a run of 3 below the first",
		negvask_alloc_contig(CARD, NEGVASK_HOST, places[0], NEGVASK_BYTES(writer), 8, 3, file, 3));
	printf("  blocks %u, %u and %u\n", (unsigned)file[0], (unsigned)file[1], (unsigned)file[2]);
	/* Ten blocks are left, 3 to 7 and 11 to 15: enough for six, but no six of them adjoin. */
	answer = negvask_alloc_contig(CARD, NEGVASK_HOST, places[0], NEGVASK_BYTES(writer),
		NEGVASK_NO_HINT, 6, file, 6);
	show("host: allot a run of 6", answer);
	if (answer == NEGVASK_NO_RUN)
		show("host: allot 6 blocks apart",
			negvask_alloc(CARD, NEGVASK_HOST, places[0], NEGVASK_BYTES(writer),
				NEGVASK_NO_HINT, 6, file, 6));
	printf("  blocks %u to %u and %u\n", (unsigned)file[0], (unsigned)file[4], (unsigned)file[5]);

	/* Two files of a directory, the first block, have their inodes in block 3: it gets a second pointer from there. */
	directory = negvask_by_reference(places[0]);
	show("host: open the first for writing, 10 seconds",
		negvask_renew(CARD, NEGVASK_RENEW_WRITE, places[0], NEGVASK_BYTES(writer), 10));
	show("host: point to block 3 a second time",
		negvask_create(CARD, NEGVASK_HOST, places[0], NEGVASK_BYTES(writer), file[0], NEGVASK_BYTES(directory)));
	/* One of the files goes, and one pointer with it. The block stays for the other. */
	answer = negvask_delete(CARD, NEGVASK_HOST, places[0], NEGVASK_BYTES(writer), file[0], &value);
	show("host: delete one of the two pointers", answer);
	printf("  freed: %lu\n", (unsigned long)value);

	/* Block 3 is a season's directory now, with a block for each of two days. One call clears it whole. */
	show("host: allot 2 blocks below block 3",
		negvask_alloc(CARD, NEGVASK_HOST, file[0], NEGVASK_BYTES(directory), NEGVASK_NO_HINT, 2, days, 2));
	printf("  blocks %u and %u\n", (unsigned)days[0], (unsigned)days[1]);
	answer = negvask_delete(CARD, NEGVASK_HOST, places[0], NEGVASK_BYTES(writer), file[0], &value);
	show("host: delete the pointer to block 3", answer);
	if (answer == NEGVASK_HAS_POINTERS)
		answer = negvask_delete_tree(CARD, NEGVASK_HOST, places[0], NEGVASK_BYTES(writer), file[0], &value);
	show("host: delete it with all that is below", answer);
	printf("  freed: %lu\n", (unsigned long)value);
	/* The first block has a write key, so that no such call frees it, whoever makes it. */
	answer = negvask_delete_tree(CARD, NEGVASK_SERVICE, 0, NEGVASK_BYTES(nothing), places[0], &value);
	show("service: delete the first in this way", answer);

	/* The last pointer to a block goes, and the block is freed. */
	answer = negvask_delete(CARD, NEGVASK_SERVICE, 0, NEGVASK_BYTES(nothing), places[1], &value);
	show("service: delete the pointer to the second", answer);
	printf("  freed: %lu\n", (unsigned long)value);
	/* What was freed waits, and still holds what was written: nobody can read these four blocks, nor are they allotted. */
	answer = negvask_count_free(CARD, &value);
	show("count the free blocks", answer);
	printf("  %lu of %d\n", (unsigned long)value, BLOCKS);
	show("service: allot 3 blocks below root 0",
		negvask_alloc(CARD, NEGVASK_SERVICE, 0, NEGVASK_BYTES(nothing), NEGVASK_NO_HINT, 3, file, 3));
	/* The firmware overwrites them when it has nothing else to do, a few at a time, until none is left. */
	do {
		answer = negvask_sweep(CARD, PORTION, &value);
		show("sweep 3 blocks at most", answer);
		printf("  swept: %lu\n", (unsigned long)value);
	} while (answer == NEGVASK_DONE && value == PORTION);
	answer = negvask_count_free(CARD, &value);
	show("count the free blocks", answer);
	printf("  %lu of %d\n", (unsigned long)value, BLOCKS);

	/* A day passes. Rent is due for the allocated blocks but the root, here at two cents for a block and a day. */
	answer = negvask_tick(CARD, NEGVASK_DAY, &value);
	show("a day passes", answer);
	answer = negvask_rent(CARD, 2000, &value);
	show("rent at 2,000 thousandths of a cent", answer);
	printf("  %lu cents\n", (unsigned long)value);
	show("rent at a price above the highest", negvask_rent(CARD, NEGVASK_PRICE_MAX + 1, &value));
	show("audit", negvask_audit(CARD));
	return 0;
}
