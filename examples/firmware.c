/*
 * The firmware's side, as docs/FIRMWARE.md has it: a host's bytes that arrive in pieces, seconds that pass, freed blocks
 * that are overwritten in idle time, and two stored copies of the card, taken up again when the tables in memory are
 * damaged and the later copy is too.
 *
 *   cc -I include examples/firmware.c path/to/libinterface.a -o firmware && ./firmware
 *
 * Its output is stored in firmware.expected.
 */
#include <stdio.h>
#include <string.h>
#include "negvask.h"

#define BLOCKS NEGVASK_BLOCKS_MIN
#define BYTES  NEGVASK_BLOCK_BYTES_MIN
#define PLACES 32

NEGVASK_STORAGE(card, BLOCKS, BYTES, PLACES);

/* ---- The wire of a host: a stand-in for the one of a recorder. */

#define ZEROS_8 0, 0, 0, 0, 0, 0, 0, 0
#define READ_0  1, 0, 0, 0, ZEROS_8, ZEROS_8, 0, 0, 0, 10                 /* READ 0, nothing, 10 */

static const uint8_t sent[] = {
	READ_0, READ_0,
	10, 0, 0, 0, 0, 0, 0, 0, 5,                                       /* TICK 5 */
	9,                                                                /* FREE */
	131,                                                              /* does not exist at the host port */
	READ_0,
};

#define PIECE 20
static size_t received = sizeof sent;

/* Whether the host has sent something that is not yet received. */
static int host_calls(void)
{
	return received < sizeof sent;
}

/* The next bytes of the host, so many at most; 0 when it has ended the session. */
static size_t receive(uint8_t *to, size_t room)
{
	size_t len = sizeof sent - received;

	len = len < PIECE ? len : PIECE;
	len = len < room ? len : room;
	memcpy(to, sent + received, len);
	received += len;
	return len;
}

static void reply(const uint8_t *answers, size_t len)
{
	if (len > 0)
		printf("  answers in bytes: %lu, the first answer: %u\n", (unsigned long)len, (unsigned)answers[0]);
}

/* A session: performs the records of a host as they arrive, and gives what the last batch stopped by. */
static uint32_t serve_host(void)
{
	static uint8_t input[NEGVASK_RECORD_MAX], answers[NEGVASK_ANSWER_MAX(BYTES)];
	size_t held = 0, more = 0;
	uint64_t records, read, written;
	uint32_t stop;

	do {
		held += more;
		stop = negvask_batch(NEGVASK_LEND(&card), NEGVASK_HOST, input, held, answers, sizeof answers,
			&records, &read, &written);
		reply(answers, (size_t)written);
		held -= (size_t)read;
		memmove(input, input + read, held);
		if (stop == NEGVASK_MALFORMED || (stop == NEGVASK_FULL && read == 0))
			return stop;
		more = stop == NEGVASK_FULL ? 0 : receive(input + held, sizeof input - held);
	} while (more > 0 || stop == NEGVASK_FULL);
	return stop;
}

/* ---- Stored copies. */

/* What stands before the parts of a copy: its number, which grows from copy to copy, and the checksum of all. */
struct heading {
	uint64_t number;
	uint64_t check;
};

/* Of the two copies the older is written over. Temporary files stand for memory that keeps its bytes without power. */
static FILE *copies[2], *evidence;
static uint64_t latest;

/* CRC-32, over further bytes. It shows an accident, not a forgery. */
static uint32_t crc32(uint32_t crc, const uint8_t *bytes, size_t len)
{
	size_t i;
	int bit;

	for (i = 0; i < len; i++) {
		crc ^= bytes[i];
		for (bit = 0; bit < 8; bit++)
			crc = (crc >> 1) ^ ((crc & 1) ? 0xEDB88320u : 0);
	}
	return crc;
}

static uint64_t checksum(uint64_t number)
{
	uint32_t crc = crc32(0xFFFFFFFFu, (const uint8_t *)&number, sizeof number);
	int i;

	for (i = 0; i < NEGVASK_PARTS; i++) {
		struct negvask_part part = negvask_part_of(&card, i);
		crc = crc32(crc, (const uint8_t *)part.bytes, part.len);
	}
	return crc ^ 0xFFFFFFFFu;
}

/* Writes record and tables as they are. */
static int write_copy(FILE *copy, uint64_t number)
{
	const struct heading heading = { number, checksum(number) };
	size_t missing = 1;
	int i;

	rewind(copy);
	missing -= fwrite(&heading, sizeof heading, 1, copy);
	for (i = 0; i < NEGVASK_PARTS; i++) {
		struct negvask_part part = negvask_part_of(&card, i);
		missing += part.len - fwrite(part.bytes, 1, part.len, copy);
	}
	return missing == 0 && fflush(copy) == 0;
}

/* Loads a copy: its number, or 0 if it is not whole or not sound. */
static uint64_t load_copy(FILE *copy)
{
	struct heading heading = { 0, 0 };
	size_t missing = 1;
	int i;

	rewind(copy);
	missing -= fread(&heading, sizeof heading, 1, copy);
	for (i = 0; i < NEGVASK_PARTS; i++) {
		struct negvask_part part = negvask_part_of(&card, i);
		missing += part.len - fread(part.bytes, 1, part.len, copy);
	}
	if (missing > 0 || heading.check != checksum(heading.number) || negvask_audit(NEGVASK_LEND(&card)) != NEGVASK_DONE)
		return 0;
	return heading.number;
}

/* Stores the card in the place of the older copy: whether it is done. */
static int store(void)
{
	if (!write_copy(copies[(latest + 1) % 2], latest + 1))
		return 0;
	latest++;
	printf("stored copy %lu\n", (unsigned long)latest);
	return 1;
}

/* Loads the latest copy that is whole and sound: whether there is one. */
static int load(void)
{
	const uint64_t even = load_copy(copies[0]), odd = load_copy(copies[1]);

	latest = even > odd ? load_copy(copies[0]) : odd;
	printf("loaded copy %lu\n", (unsigned long)latest);
	return latest > 0;
}

/* Stores a sound card. Keeps a damaged one for the operator and takes up a stored copy. Never formats. */
static int settle(void)
{
	const uint32_t verdict = negvask_audit(NEGVASK_LEND(&card));

	if (verdict == NEGVASK_DONE)
		return store();
	printf("audit %u\n", (unsigned)verdict);
	return write_copy(evidence, 0) && load();
}

/* ---- Idle time. */

/* The most blocks that are overwritten by one call, while a host may have to wait. */
#define PORTION 4

/* Overwrites the blocks that were freed, until none is left or a host calls: how many. */
static uint64_t sweep(void)
{
	uint64_t swept, all = 0;

	do {
		swept = 0;
		if (negvask_sweep(NEGVASK_LEND(&card), PORTION, &swept) != NEGVASK_DONE)
			break;
		all += swept;
	} while (swept == PORTION && !host_calls());
	return all;
}

/* ---- The recorder. */

static void session(void)
{
	received = 0;
	printf("session\n");
	printf("  stopped by %u\n", (unsigned)serve_host());
	/* The wire is reset: what is left of the session is dropped. */
	received = sizeof sent;
}

/* At the service port a file of six blocks is allotted, and deleted with its first one. */
static void allot_and_delete(void)
{
	const struct negvask_credential nothing = negvask_by_nothing();
	uint16_t file[6];
	uint64_t freed = 0;

	negvask_alloc(NEGVASK_LEND(&card), NEGVASK_SERVICE, 0, NEGVASK_BYTES(nothing), NEGVASK_NO_HINT, 1, file, 1);
	negvask_alloc(NEGVASK_LEND(&card), NEGVASK_SERVICE, file[0], NEGVASK_BYTES(nothing), NEGVASK_NO_HINT, 5,
		file + 1, 5);
	negvask_delete_tree(NEGVASK_LEND(&card), NEGVASK_SERVICE, 0, NEGVASK_BYTES(nothing), file[0], &freed);
	printf("freed %lu\n", (unsigned long)freed);
}

/* What an accident leaves: tables that contradict each other, and a copy with a wrong byte in its contents. */
static void damage(FILE *copy)
{
	card.counts[1] = 7;
	fseek(copy, -1, SEEK_END);
	fputc(255, copy);
	fflush(copy);
}

int main(void)
{
	uint64_t time = 0;
	int ready;

	copies[0] = tmpfile();
	copies[1] = tmpfile();
	evidence = tmpfile();
	if (!copies[0] || !copies[1] || !evidence)
		return 1;
	negvask_format(NEGVASK_LEND(&card), BLOCKS, NEGVASK_ROOTS_MIN, BYTES);
	ready = settle();
	session();
	ready = ready && settle();
	negvask_tick(NEGVASK_LEND(&card), 60, &time);
	printf("60 seconds pass: T %lu\n", (unsigned long)time);
	allot_and_delete();
	printf("swept %lu\n", (unsigned long)sweep());
	ready = ready && settle();

	damage(copies[latest % 2]);
	session();
	ready = ready && settle();
	negvask_tick(NEGVASK_LEND(&card), 0, &time);
	printf("T %lu\n", (unsigned long)time);

	/* By this record the answer to READ has no room, however often it is tried. */
	card.info[2] = NEGVASK_BLOCK_BYTES_MAX;
	session();
	ready = ready && settle();
	return ready ? 0 : 1;
}
