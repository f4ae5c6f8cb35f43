/*
 * Before a card is handed over: what every host reaches, what the keys of the first observatory open, what stays hidden
 * from them, and which sealed blocks' write keys would open a hidden block. The lists find two mistakes of the fitter: a
 * window that is still open, and a block of the second observatory that one for all points to.
 *
 *   cc -I include examples/handover.c path/to/libinterface.a -o handover && ./handover
 *
 * Its output is stored in handover.expected.
 */
#include <stdio.h>
#include "negvask.h"

#define BLOCKS NEGVASK_BLOCKS_MIN
#define BYTES  NEGVASK_BLOCK_BYTES_MIN
#define PLACES 32

NEGVASK_STORAGE(card, BLOCKS, BYTES, PLACES);
#define CARD NEGVASK_LEND(&card)

/* ---- The card. Its keys are examples, with a word in common. */

#define HIGH 0x0123456789ABCDEFu

static void allot(uint16_t reference, uint8_t count)
{
	const struct negvask_credential nothing = negvask_by_nothing();
	uint16_t places[BLOCKS];

	negvask_alloc(CARD, NEGVASK_SERVICE, reference, NEGVASK_BYTES(nothing), NEGVASK_NO_HINT, count, places, BLOCKS);
}

static void point(uint16_t source, uint16_t destination)
{
	const struct negvask_credential nothing = negvask_by_nothing();

	negvask_create(CARD, NEGVASK_SERVICE, source, NEGVASK_BYTES(nothing), destination, NEGVASK_BYTES(nothing));
}

/* Seals a block by two keys. */
static void seal(uint16_t block, uint64_t read_low, uint64_t write_low)
{
	const struct negvask_credential nothing = negvask_by_nothing();
	const struct negvask_new_key read_key = negvask_set_key(HIGH, read_low);
	const struct negvask_new_key write_key = negvask_set_key(HIGH, write_low);

	negvask_key_read(CARD, NEGVASK_SERVICE, block, NEGVASK_BYTES(nothing), NEGVASK_BYTES(read_key));
	negvask_key_write(CARD, NEGVASK_SERVICE, block, NEGVASK_BYTES(nothing), NEGVASK_BYTES(write_key));
}

/* Directories 1 and 2 and a block 3 for all; files 4 and 5 of the first, 6 and 7 of the second, and 8 that both share. */
static void fit(void)
{
	negvask_format(CARD, BLOCKS, NEGVASK_ROOTS_MIN, BYTES);
	allot(0, 3);
	seal(1, 11, 12);
	seal(2, 21, 22);
	allot(1, 2);
	seal(5, 13, 14);
	allot(2, 2);
	seal(6, 23, 24);
	allot(5, 1);
	point(6, 8);
	point(3, 7);
}

/* ---- The lists. */

static void print_blocks(const uint16_t *blocks, uint64_t count)
{
	uint64_t i;

	for (i = 0; i < count; i++)
		printf(" %u", (unsigned)blocks[i]);
	printf("%s\n", count > 0 ? "" : " none");
}

/* What a host reaches that presents these keys, and what is hidden from it. */
static void report(const char *who, const uint64_t *given, size_t given_len)
{
	uint16_t within[BLOCKS], hidden[BLOCKS];
	uint64_t count = 0, hidden_count = 0, at = 0;
	uint16_t block;

	printf("%s: %u\n", who, (unsigned)negvask_reach(CARD, given, given_len, within, BLOCKS, &count));
	for (block = 0; block < BLOCKS; block++) {
		if (at < count && within[at] == block)
			at++;
		else if (card.flags[block] & 1)
			hidden[hidden_count++] = block;
	}
	printf("  within reach:");
	print_blocks(within, count);
	printf("  hidden:      ");
	print_blocks(hidden, hidden_count);
}

/* The sealed blocks whose write keys would open a block, each alone beside these keys. */
static void unlocking(uint16_t block, const uint64_t *given, size_t given_len, size_t room)
{
	uint16_t places[BLOCKS];
	uint64_t count = 0;
	const uint32_t answer = negvask_unlocking(CARD, block, given, given_len, places, room, &count);

	printf("what would open block %u: %u\n", (unsigned)block, (unsigned)answer);
	if (answer == NEGVASK_DONE) {
		printf("  write key of:");
		print_blocks(places, count);
	}
}

int main(void)
{
	/* The read key of the first observatory as it was written down, and its write key. */
	static const uint8_t read_key[16] = { 0x01, 0x23, 0x45, 0x67, 0x89, 0xAB, 0xCD, 0xEF, 0, 0, 0, 0, 0, 0, 0, 11 };
	const struct negvask_credential writer = negvask_by_key(HIGH, 24);
	const struct negvask_credential nothing = negvask_by_nothing();
	uint64_t first[2 * (NEGVASK_KEYS_MAX + 1)] = { 0 }, value;
	uint8_t data[BYTES] = { 0 };

	fit();
	negvask_key_words(first, read_key);
	first[2] = HIGH;
	first[3] = 12;

	/* A trial of a key of the second observatory leaves a window open; a pointer that nobody wanted leads to block 7. */
	negvask_write(CARD, NEGVASK_HOST, 6, NEGVASK_BYTES(writer), 60, data, BYTES);
	report("every host, without a key", first, 0);
	negvask_force(CARD, 6);
	negvask_delete(CARD, NEGVASK_SERVICE, 3, NEGVASK_BYTES(nothing), 7, &value);
	report("every host, the window shut and the pointer gone", first, 0);

	report("the first observatory, by its read key", first, 2);
	report("the first observatory, by both its keys", first, 4);
	unlocking(8, first, 4, BLOCKS);
	unlocking(7, first, 4, BLOCKS);
	unlocking(5, first, 4, BLOCKS);

	/* Refused: room for one of two blocks, a block within reach, one that is not allocated, a 65th key. */
	unlocking(8, first, 4, 1);
	unlocking(4, first, 4, BLOCKS);
	unlocking(15, first, 4, BLOCKS);
	unlocking(8, first, 2 * (NEGVASK_KEYS_MAX + 1), BLOCKS);
	return 0;
}
