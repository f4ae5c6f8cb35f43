/*
 * negvask.h: the C interface of the type-safe storage card.
 *
 * The card allocates blocks, keeps the pointers between them and frees a
 * block when its last pointer goes; a block may point to another several
 * times. A freed block waits until it is overwritten, and is free then.
 * The card opens a block to a host by the block's key; without a key, a
 * root is open to every host, and another block by reference to one that
 * points to it and was lately opened.
 *
 * docs/FIRMWARE.md says how firmware builds, links and calls it, and
 * docs/RECORDS.md what a host sends.
 *
 * Common to all functions
 * -----------------------
 *
 * `./archive` makes the archive, for x86-64 Linux alone,
 * since that is what it compiles for. Whoever links it supplies memcpy()
 * and memset(), as any C library does, and nothing else; `nm -u` of the
 * archive says so.
 * The deepest call, negvask_unlocking(), takes 58,144 bytes of stack below
 * its caller, as `tests/run.sh --benchmark` prints; the deepest of a host
 * takes 38,976.
 *
 * All state is in memory provided by the caller: a record of six
 * numbers and seven tables. The functions keep nothing between calls,
 * allocate nothing and use no global state.
 *
 * Lengths are counted in elements, not in bytes. A pointer must be valid
 * for its length and aligned for its type, and must not be null even
 * where the length is 0. What one call is lent must not overlap, but for
 * what it only reads: the same bytes may be two of its credentials. While
 * a call runs nobody else may write to what it was lent, another call on
 * the same card, a device and the host that sent the bytes included.
 * Nothing else is asked of the caller: tables and operands of any content
 * are answered, and a bad one is refused.
 *
 * Every function but negvask_batch() returns NEGVASK_DONE (0) or the
 * number of a refusal, and one that refuses changes nothing: no table, no
 * part of the record, no buffer and no result. Where several refusals
 * apply, the first one in the order given at the function is returned.
 *
 * negvask_batch() performs many calls and returns why it stopped: 0, 1,
 * 13, NEGVASK_CUT (256) or NEGVASK_FULL (257). Where it stops at a
 * record, with 13, 256 or 257, it has performed all those before it, and
 * nothing of that one is done. A call that is refused within a batch
 * changes nothing but the byte of its answer.
 *
 * Every function but negvask_format() audits the card before it performs
 * a call: the record and the tables whole, but of contents the length
 * alone. negvask_batch() audits once for all its records. So a call on a
 * sound card takes at least the time of an audit, linear in N and P, which
 * `tests/run.sh --benchmark` prints; README.md has figures.
 *
 * NEGVASK_SHAPE (1) and NEGVASK_UNSOUND (2) from any function but
 * negvask_format() say that the card is damaged, or that something else
 * was lent in its place: no function makes such a card of a sound one.
 * Firmware then keeps record and tables as they are, reports it to the
 * operator, and takes up a stored copy that negvask_audit() finds sound.
 * It never formats the card by itself, which would do away with all keys
 * and pointers.
 *
 * The record, `info`, has exactly six numbers:
 *
 *   info[0]   N, the number of blocks, 16 to 4,096
 *   info[1]   R, the number of roots, 1 to 8; blocks 0 to R-1 are roots
 *   info[2]   B, the bytes of a block, a power of two, 512 to 65,536
 *   info[3]   M, the number of places in use in the pointer table
 *   info[4]   T, the time in seconds, below 2^40
 *   info[5]   the total by which the rent goes, in blocks times seconds;
 *             above T * 4,096 the card is unsound
 *
 * The tables, always all seven and in this order:
 *
 *   flags           N bytes: 1 allocated, 2 has a read key, 4 has a
 *                   write key, added up; 8 alone waiting; 0 free
 *   keys            4 * N words: read key high, low, write key high, low
 *   counts          N numbers: the multiplicities of all pointers to the
 *                   block, added up
 *   pointers        P numbers, P from 1 to 16,384 as the caller chooses,
 *                   each source * 65,536 + destination: the first M
 *                   strictly ascending, the rest 0
 *   multiplicities  P numbers: how often the pointer in the same place of
 *                   `pointers` is there, 1 to 65,535 for the first M, the
 *                   rest 0
 *   windows         2 * N numbers: for each block the end of its read
 *                   window, then of its write window, in seconds
 *   contents        N * B bytes: block b from b * B on
 *
 * So a block may point to another several times, and all these pointers
 * take one place. A count says how often pointers to the block were made
 * and not yet taken away.
 *
 * A block is allocated, waiting or free. negvask_alloc() and
 * negvask_alloc_contig() take free blocks alone, and fill them with zeros.
 * A block that negvask_delete() or negvask_delete_tree() frees waits: it
 * has no keys, no count and no windows, no call takes, reads or writes it,
 * and its contents stay in the memory. negvask_sweep() fills waiting
 * blocks with zeros and makes them free. By negvask_format() they are free
 * at once, and are not overwritten.
 *
 * A window is open while T is less than its end. No call lets it end
 * sooner but negvask_force(), a key change, a negvask_delete() or a
 * negvask_delete_tree() that frees the block, and negvask_format(): they
 * set the end to 0.
 *
 * The total grows by negvask_tick() alone: by the seconds that pass, for
 * each block that is allocated then and no root, and so for none that
 * waits. negvask_rent() gives what it comes to in cents.
 *
 * A card as a caller keeps it
 * ---------------------------
 *
 * struct negvask_card has the record, and each table's pointer and length.
 * NEGVASK_LEND(&card) passes them as the parameters with which every
 * function begins. NEGVASK_STORAGE() declares such a card with static
 * storage for its tables. A caller that keeps to these, to
 * negvask_part_of() and to NEGVASK_BYTES() stays as it is where a table
 * is added, or the record, an element or a credential grows.
 *
 * For tables in memory of the caller's own, a mapped region perhaps, each
 * pointer and each length is set, one table behind the other:
 *
 *   card.counts = (void *)at;
 *   card.counts_len = N;
 *   at += card.counts_len * sizeof *card.counts;
 *
 * In the order keys, windows, pointers, counts, multiplicities, flags,
 * contents each is aligned where the first one is aligned for uint64_t.
 * The record is in the struct itself: it is copied there from such memory,
 * and back.
 *
 * negvask_format() makes the card, and after that the caller leaves record
 * and tables to these functions. It may store the bytes of each part,
 * negvask_part_of(&card, i) for i from 0 to NEGVASK_PARTS - 1, and lend the
 * card again when it has loaded them into parts of the same lengths.
 *
 * Ports
 * -----
 *
 * NEGVASK_HOST is for calls that come from a host, NEGVASK_SERVICE for the
 * maker's and operator's own. Calls at the service port skip credentials
 * and open no window; their operands are checked as a host's are, and a
 * credential passed there must still be well formed.
 *
 * The firmware chooses the port by the wire on which bytes arrive, never
 * by anything in the bytes. Bytes that come from a host go to
 * negvask_serve() or negvask_batch() with NEGVASK_HOST, as they came, and
 * to no other function: there a record for the service port is refused
 * 13. NEGVASK_SERVICE and negvask_format() must not be reachable from a
 * host: the one opens every block without a credential, the other does
 * away with all keys and pointers. Nor must negvask_reach() or
 * negvask_unlocking(), which belong to the service port and ask for no
 * credential: by them a host could try a guessed key on all blocks at once.
 *
 * Credentials
 * -----------
 *
 * A credential is 17 bytes, in the form that call records have:
 *
 *   nothing            0 and 16 zeros
 *   a reference block  1, the block's number in 2 bytes and 14 zeros
 *   a key              2 and the key's 16 bytes
 *
 * Numbers are big-endian. negvask_by_nothing(), negvask_by_reference()
 * and negvask_by_key() make the bytes, and NEGVASK_BYTES() passes them
 * with their length; other bytes, or another number of them, are refused
 * 13. A credential opens block b for reading or for writing thus:
 *
 *   - where b has a key for the operation, that key alone; for reading
 *     b's write key too, if there is one;
 *   - where b is a root and has no such key, nothing alone;
 *   - elsewhere a reference alone: to an allocated block that points to
 *     b, with its window for the operation open.
 *
 * A new key is 17 bytes too: 1 and the key's 16 bytes, or 0 and 16 zeros
 * for none. A key has 128 bits, and 0 is one too. negvask_set_key() and
 * negvask_set_no_key() make the bytes. A block's read key and its write
 * key are set separately, by negvask_key_read() and negvask_key_write().
 * With one key alone, a block is open to a reference, or a root to every
 * host, for the other operation.
 *
 * What a set of keys opens
 * ------------------------
 *
 * Before a card is handed over, its fitter wants to know what a set of
 * keys opens: the keys of one observatory perhaps, or none at all, which
 * is what every host has. Two functions say what a host may reach in a
 * session that begins on this card, with the windows that are open now,
 * and presents exactly these keys. No record carries them.
 *
 * negvask_reach() lists the blocks within reach:
 *
 *   - each root that is not sealed;
 *   - each block with a key of the set, as its read key or its write key;
 *   - each block with an open window;
 *   - and from these on each block that is not sealed and to which a
 *     block within reach points.
 *
 * A block is sealed if it has both keys and neither is in the set. An
 * allocated block that is not listed is hidden: nothing that such a
 * session is answered depends on what it holds. Nor does it depend on what
 * a block holds that waits or is free, and neither is ever listed. A listed
 * block need not be open to the session; it is only not promised to be
 * hidden. So what is to stay secret from the holder of the keys must not
 * be in the list.
 *
 * negvask_unlocking() lists, for a hidden block, each sealed block whose
 * write key, added alone to the set, would bring the hidden one within
 * reach: whom to ask for a key, or whose key is worth guarding. A key
 * counts by its value wherever it stands, so two sealed blocks with one
 * write key are listed both. A hidden block that is sealed lists itself.
 *
 * The keys are words, high and low in turn, 64 keys at most; a key may
 * stand among them twice. negvask_key_words() makes the words of a key's
 * 16 bytes.
 *
 *   uint64_t given[2 * NEGVASK_KEYS_MAX];
 *   uint16_t blocks[NEGVASK_BLOCKS_MAX];
 *   uint64_t count;
 *
 *   negvask_key_words(given, key);
 *   negvask_reach(CARD, given, 2, blocks, NEGVASK_BLOCKS_MAX, &count);
 *   // blocks[0] to blocks[count - 1] are within reach of that key.
 *
 * examples/handover.c is a whole program of this kind, and examples/draw.c
 * draws a card by both lists.
 *
 * Worked example
 * --------------
 *
 * A card of 16 blocks with one root, 512 bytes a block and 32 places for
 * pointers:
 *
 *   NEGVASK_STORAGE(card, 16, 512, 32);
 *   #define CARD NEGVASK_LEND(&card)
 *
 *   struct negvask_credential nothing = negvask_by_nothing();
 *   struct negvask_credential reader = negvask_by_key(1, 2);
 *   struct negvask_credential writer = negvask_by_key(3, 4);
 *   struct negvask_new_key read_key = negvask_set_key(1, 2);
 *   struct negvask_new_key write_key = negvask_set_key(3, 4);
 *   uint16_t place[1];
 *   uint8_t data[512] = { 42 }, out[512];
 *   uint32_t answer;
 *
 *   negvask_format(CARD, 16, 1, 512);
 *
 *   // The operator allots a block below root 0 and gives it two keys.
 *   negvask_alloc(CARD, NEGVASK_SERVICE, 0, NEGVASK_BYTES(nothing),
 *                 NEGVASK_NO_HINT, 1, place, 1);
 *   negvask_key_read(CARD, NEGVASK_SERVICE, place[0],
 *                    NEGVASK_BYTES(nothing), NEGVASK_BYTES(read_key));
 *   negvask_key_write(CARD, NEGVASK_SERVICE, place[0],
 *                     NEGVASK_BYTES(nothing), NEGVASK_BYTES(write_key));
 *
 *   // A host writes by the write key and reads by the read key.
 *   negvask_write(CARD, NEGVASK_HOST, place[0], NEGVASK_BYTES(writer),
 *                 0, data, sizeof data);
 *   negvask_read(CARD, NEGVASK_HOST, place[0], NEGVASK_BYTES(reader),
 *                0, out, sizeof out);
 *
 *   // Without a key it is refused, and `out` is left as it was.
 *   answer = negvask_read(CARD, NEGVASK_HOST, place[0],
 *                         NEGVASK_BYTES(nothing), 0, out, sizeof out);
 *   // answer == NEGVASK_NOT_OPENED
 *
 * examples/host.c is a whole program of this kind. examples/batch.c has a
 * host's wire and a service wire, examples/firmware.c a wire that brings
 * bytes in pieces, and stored copies.
 */

#ifndef NEGVASK_H
#define NEGVASK_H

#include <stddef.h>
#include <stdint.h>

#ifdef __cplusplus
extern "C" {
#endif

/* Answers. */

/** The call is done. */
#define NEGVASK_DONE             0
/** Record or tables are out of shape: a number out of its range, a table
    of another length, or M above P. */
#define NEGVASK_SHAPE            1
/** The card is not sound: its tables contradict the record or each other,
    or hold a number that none may have; or the total is above T * 4,096. */
#define NEGVASK_UNSOUND          2
/** A block number is not below N, or the block is not allocated: it waits
    or is free. */
#define NEGVASK_NO_BLOCK         3
/** An operand is out of its range, or a buffer has the wrong length; or
    the block for which negvask_unlocking() is asked is within reach. */
#define NEGVASK_BAD_OPERAND      4
/** The credential does not open the block. */
#define NEGVASK_NOT_OPENED       5
/** The call is not allowed on a root. */
#define NEGVASK_ROOT             6
/** The two ends are equal, or the pointer's multiplicity is 65,535. */
#define NEGVASK_CANNOT_POINT     7
/** There is no such pointer. */
#define NEGVASK_NO_POINTER       8
/** The last pointer to a block that has pointers of its own. */
#define NEGVASK_HAS_POINTERS     9
/** Fewer blocks are free than asked for; those that wait do not count. */
#define NEGVASK_NO_SPACE        10
/** The pointer table has too few places left. */
#define NEGVASK_NO_PLACE        11
/** The time would reach 2^40. */
#define NEGVASK_CLOCK           12
/** A port, record, credential or new key is ill formed: the kind of a
    record that does not exist at the port, and a credential that has not
    its length, are such. */
#define NEGVASK_MALFORMED       13
/** Enough blocks are free, but no run of them is as long as asked for. */
#define NEGVASK_NO_RUN          14
/** A block that would be freed has a write key. */
#define NEGVASK_HAS_WRITE_KEY   15
/** The price is above 2,000. */
#define NEGVASK_PRICE_TOO_HIGH  16

/* Why negvask_batch() stops, beside 0, 1 and 13: no refusal has these
   numbers. */

/** The input ends within a record. */
#define NEGVASK_CUT            256
/** There is no room for the next answer. */
#define NEGVASK_FULL           257

/* Limits. */

/** N, the number of blocks. */
#define NEGVASK_BLOCKS_MIN      16
#define NEGVASK_BLOCKS_MAX    4096
/** R, the number of roots. */
#define NEGVASK_ROOTS_MIN        1
#define NEGVASK_ROOTS_MAX        8
/** B, the bytes of a block: the powers of two from and to these. */
#define NEGVASK_BLOCK_BYTES_MIN    512
#define NEGVASK_BLOCK_BYTES_MAX  65536
/** P, the places of the pointer table. */
#define NEGVASK_POINTERS_MIN     1
#define NEGVASK_POINTERS_MAX 16384
/** How often a block may point to another. */
#define NEGVASK_MULTIPLICITY_MAX 65535

/** The number of numbers in the record. */
#define NEGVASK_INFO_LEN         6

/** The number of bytes in a credential or a new key. */
#define NEGVASK_CREDENTIAL_LEN  17

/** The most keys of which negvask_reach() and negvask_unlocking() are
    asked; each is two words. */
#define NEGVASK_KEYS_MAX        64

/** The longest call record, WRITE's: an input with so many bytes does not
    end within its first record. */
#define NEGVASK_RECORD_MAX     536
/** The longest answer of a batch, READ's, on a sound card whose blocks have
    `bytes` bytes: with so much room no batch stops with 257 at its first
    record. */
#define NEGVASK_ANSWER_MAX(bytes)  (1 + (bytes))

/* Operands. */

/** The port of everything that comes from a host. */
#define NEGVASK_HOST             0
/** The maker's and operator's port, which no host may reach. */
#define NEGVASK_SERVICE          1

/** No hint: ALLOC takes the lowest free block, ALLOC_CONTIG the lowest
    run. */
#define NEGVASK_NO_HINT      65535
/** The longest interval of a window, in seconds. */
#define NEGVASK_DAY          86400
/** The highest price of negvask_rent(), in thousandths of a cent for a
    block and a day. */
#define NEGVASK_PRICE_MAX     2000

/** Modes of negvask_renew(). */
#define NEGVASK_RENEW_READ       0
#define NEGVASK_RENEW_WRITE      1

/* The card. */

/*
 * The record and the seven tables, as the parameters with which every
 * function begins. They are described at the top of this file.
 */
#define NEGVASK_TABLES \
	uint64_t *info, size_t info_len, \
	uint8_t *flags, size_t flags_len, \
	uint64_t *keys, size_t keys_len, \
	uint32_t *counts, size_t counts_len, \
	uint32_t *pointers, size_t pointers_len, \
	uint16_t *multiplicities, size_t multiplicities_len, \
	uint64_t *windows, size_t windows_len, \
	uint8_t *contents, size_t contents_len

/*
 * The same for a function that only reads them.
 */
#define NEGVASK_TABLES_READ \
	const uint64_t *info, size_t info_len, \
	const uint8_t *flags, size_t flags_len, \
	const uint64_t *keys, size_t keys_len, \
	const uint32_t *counts, size_t counts_len, \
	const uint32_t *pointers, size_t pointers_len, \
	const uint16_t *multiplicities, size_t multiplicities_len, \
	const uint64_t *windows, size_t windows_len, \
	const uint8_t *contents, size_t contents_len

/** A card as a caller keeps it: the record, and each table's pointer and
    number of elements. */
struct negvask_card {
	uint64_t info[NEGVASK_INFO_LEN];
	uint8_t *flags;
	size_t flags_len;
	uint64_t *keys;
	size_t keys_len;
	uint32_t *counts;
	size_t counts_len;
	uint32_t *pointers;
	size_t pointers_len;
	uint16_t *multiplicities;
	size_t multiplicities_len;
	uint64_t *windows;
	size_t windows_len;
	uint8_t *contents;
	size_t contents_len;
};

/** The arguments with which every call begins, by a pointer to a struct
    negvask_card, which is evaluated for each of them. */
#define NEGVASK_LEND(card) \
	(card)->info, NEGVASK_INFO_LEN, \
	(card)->flags, (card)->flags_len, \
	(card)->keys, (card)->keys_len, \
	(card)->counts, (card)->counts_len, \
	(card)->pointers, (card)->pointers_len, \
	(card)->multiplicities, (card)->multiplicities_len, \
	(card)->windows, (card)->windows_len, \
	(card)->contents, (card)->contents_len

/** Declares `name`, a static struct negvask_card, with static tables for
    `blocks` blocks of `bytes` bytes and `places` places for pointers, all
    of them constants. A semicolon follows. The card is not yet formatted. */
#define NEGVASK_STORAGE(name, blocks, bytes, places) \
	static uint8_t name##_flags[blocks]; \
	static uint64_t name##_keys[4 * (blocks)]; \
	static uint32_t name##_counts[blocks]; \
	static uint32_t name##_pointers[places]; \
	static uint16_t name##_multiplicities[places]; \
	static uint64_t name##_windows[2 * (blocks)]; \
	static uint8_t name##_contents[(size_t)(blocks) * (bytes)]; \
	static struct negvask_card name = { \
		{ 0 }, \
		name##_flags, (blocks), \
		name##_keys, 4 * (blocks), \
		name##_counts, (blocks), \
		name##_pointers, (places), \
		name##_multiplicities, (places), \
		name##_windows, 2 * (blocks), \
		name##_contents, (size_t)(blocks) * (bytes) \
	}

/** The parts of a card that are stored: the record and the tables. */
#define NEGVASK_PARTS            8

/** A part of a card: its bytes in memory and how many they are. */
struct negvask_part {
	void *bytes;
	size_t len;
};

/** Part `i` of a card, from 0 to NEGVASK_PARTS - 1. */
static inline struct negvask_part negvask_part_of(struct negvask_card *card,
	int i)
{
	const struct negvask_part parts[NEGVASK_PARTS] = {
		{ card->info, sizeof card->info },
		{ card->flags, card->flags_len * sizeof *card->flags },
		{ card->keys, card->keys_len * sizeof *card->keys },
		{ card->counts, card->counts_len * sizeof *card->counts },
		{ card->pointers, card->pointers_len * sizeof *card->pointers },
		{ card->multiplicities,
			card->multiplicities_len * sizeof *card->multiplicities },
		{ card->windows, card->windows_len * sizeof *card->windows },
		{ card->contents, card->contents_len * sizeof *card->contents }
	};

	return parts[i];
}

/* Credentials and new keys. */

/* A credential, as parameters: bytes and how many. */
#define NEGVASK_CREDENTIAL \
	const uint8_t *credential, size_t credential_len

/** A credential, as a caller keeps it: its bytes and how many. */
struct negvask_credential {
	uint8_t bytes[NEGVASK_CREDENTIAL_LEN];
	size_t len;
};

/** A key to be set, or none, as a caller keeps it. */
struct negvask_new_key {
	uint8_t bytes[NEGVASK_CREDENTIAL_LEN];
	size_t len;
};

/** The two arguments for a credential or a new key in a variable. */
#define NEGVASK_BYTES(x)  (x).bytes, (x).len

/* Puts a first byte and a key's 16 bytes: how many bytes these are. */
static inline size_t negvask_put_key(uint8_t *to, uint8_t first,
	uint64_t high, uint64_t low)
{
	int i;

	to[0] = first;
	for (i = 0; i < 8; i++) {
		to[1 + i] = (uint8_t)(high >> (56 - 8 * i));
		to[9 + i] = (uint8_t)(low >> (56 - 8 * i));
	}
	return NEGVASK_CREDENTIAL_LEN;
}

/** The credential that is nothing. */
static inline struct negvask_credential negvask_by_nothing(void)
{
	struct negvask_credential made;

	made.len = negvask_put_key(made.bytes, 0, 0, 0);
	return made;
}

/** The credential that is a reference block. */
static inline struct negvask_credential negvask_by_reference(uint16_t block)
{
	struct negvask_credential made;

	made.len = negvask_put_key(made.bytes, 1, (uint64_t)block << 48, 0);
	return made;
}

/** The credential that is a key, by its high and low word. */
static inline struct negvask_credential negvask_by_key(uint64_t high,
	uint64_t low)
{
	struct negvask_credential made;

	made.len = negvask_put_key(made.bytes, 2, high, low);
	return made;
}

/** A new key, by its high and low word. */
static inline struct negvask_new_key negvask_set_key(uint64_t high,
	uint64_t low)
{
	struct negvask_new_key made;

	made.len = negvask_put_key(made.bytes, 1, high, low);
	return made;
}

/** No new key: the block is to have none. */
static inline struct negvask_new_key negvask_set_no_key(void)
{
	struct negvask_new_key made;

	made.len = negvask_put_key(made.bytes, 0, 0, 0);
	return made;
}

/** Puts the two words of a key's 16 bytes, the high one first. */
static inline void negvask_key_words(uint64_t *to, const uint8_t *key)
{
	int i;

	to[0] = 0;
	to[1] = 0;
	for (i = 0; i < 16; i++)
		to[i / 8] = to[i / 8] << 8 | key[i];
}

/* Functions. */

/**
 * \brief Format a card: the maker's call, never a host's.
 *
 * No record carries it, and nothing that a host sends may lead to it.
 *
 * Time, M and the total become 0; roots are allocated, all other blocks
 * are free, those that waited too; keys, counts, pointers, multiplicities
 * and windows become 0, and so do the contents of the roots. Unmodified:
 * the contents of the other blocks. So where these must be gone, the
 * caller frees and sweeps them first, or fills `contents` itself.
 *
 * The caller provides the record and the tables with any values in them;
 * the table lengths must fit `blocks` and `bytes`. What the record and
 * the tables hold is not looked at.
 *
 * Refusals:
 *   1   the record has not six numbers; `blocks`, `roots` or `bytes` is
 *       out of its range, or P is; a table's length does not fit, or
 *       `multiplicities` is not as long as `pointers`
 *
 * \param blocks  N, 16 to 4,096.
 * \param roots   R, 1 to 8.
 * \param bytes   B, a power of two, 512 to 65,536.
 * \return  0 or a refusal.
 */
uint32_t negvask_format(NEGVASK_TABLES,
	uint64_t blocks, uint64_t roots, uint64_t bytes);

/**
 * \brief Audit record and tables whole.
 *
 * Takes time linear in N and P. Contents are not looked at, only their
 * length. Every other function but negvask_format() makes the same audit
 * before it performs a call, so a caller need not make it first; it does
 * after loading a stored card. Unmodified: everything.
 *
 * Refusals, in order:
 *   1   out of shape
 *   2   unsound: a total above T * 4,096 is such, whatever N is, and one
 *       that equals it is not; and a block with flag 8 that has another
 *       flag, a key, a count or a window, or is a root
 *
 * \return  0 or a refusal.
 */
uint32_t negvask_audit(NEGVASK_TABLES);

/**
 * \brief Read a block.
 *
 * Copies the B bytes of the block to `out`. If `interval` is not 0 and
 * the call is a host's, the end of the block's read window becomes the
 * later of its present end and T + `interval`; 0 leaves the window as it
 * is. Unmodified: all tables but that window, and the record.
 *
 * The caller provides `out` with exactly B places and keeps it.
 *
 * Refusals, in order:
 *   13  `port` is neither 0 nor 1; the credential is ill formed
 *   1   out of shape
 *   2   unsound
 *   4   `out_len` is not B, or `interval` is above 86,400
 *   3   `block` is not below N or not allocated
 *   5   a host's credential does not open the block for reading
 *
 * \param port            NEGVASK_HOST or NEGVASK_SERVICE.
 * \param block           the block's number.
 * \param credential      17 bytes that open the block.
 * \param credential_len  17.
 * \param interval        seconds to open the read window for, 0 to 86,400.
 * \param out             receives the block.
 * \param out_len         B.
 * \return  0 or a refusal.
 */
uint32_t negvask_read(NEGVASK_TABLES,
	uint8_t port, uint16_t block, NEGVASK_CREDENTIAL, uint32_t interval,
	uint8_t *out, size_t out_len);

/**
 * \brief Write a block.
 *
 * Copies `data` to the B bytes of the block. If `interval` is not 0 and
 * the call is a host's, the end of the block's write window becomes the
 * later of its present end and T + `interval`; 0 leaves the window as it
 * is. Unmodified: `data`, the contents of all other blocks, all other
 * tables but that window, and the record.
 *
 * Refusals, in order:
 *   13  `port` is neither 0 nor 1; the credential is ill formed
 *   1   out of shape
 *   2   unsound
 *   4   `data_len` is not B, or `interval` is above 86,400
 *   3   `block` is not below N or not allocated
 *   5   a host's credential does not open the block for writing
 *
 * \param port            NEGVASK_HOST or NEGVASK_SERVICE.
 * \param block           the block's number.
 * \param credential      17 bytes that open the block.
 * \param credential_len  17.
 * \param interval        seconds to open the write window for, 0 to 86,400.
 * \param data            the bytes to write.
 * \param data_len        B.
 * \return  0 or a refusal.
 */
uint32_t negvask_write(NEGVASK_TABLES,
	uint8_t port, uint16_t block, NEGVASK_CREDENTIAL, uint32_t interval,
	const uint8_t *data, size_t data_len);

/**
 * \brief Allocate blocks below a reference block.
 *
 * Takes `count` blocks one by one, each the free block nearest the hint,
 * the lower on a tie; without a hint the lowest. Each is filled with
 * zeros, and the reference block points to it, once. Its number is put in
 * the next place of `places`. A block that waits is not taken, also where
 * the hint names it. Unmodified: the places after the first `count`, keys,
 * windows, and the contents of all other blocks.
 *
 * The caller provides `places` with at least `count` places and keeps it.
 *
 * Refusals, in order:
 *   13  `port` is neither 0 nor 1; the credential is ill formed
 *   1   out of shape
 *   2   unsound
 *   4   `count` is 0 or above 64; `hint` is neither below N nor
 *       NEGVASK_NO_HINT; `places_len` is less than `count`
 *   3   `reference` is not below N or not allocated
 *   6   `reference` is a root and the call is a host's
 *   5   a host's credential does not open `reference` for writing
 *   10  fewer than `count` blocks are free
 *   11  M + `count` is above P
 *
 * \param port            NEGVASK_HOST or NEGVASK_SERVICE.
 * \param reference       the block that is to point to the new ones.
 * \param credential      17 bytes that open the block.
 * \param credential_len  17.
 * \param hint            a block number, or NEGVASK_NO_HINT.
 * \param count           how many, 1 to 64.
 * \param places          receives the numbers in the order taken.
 * \param places_len      the number of places.
 * \return  0 or a refusal.
 */
uint32_t negvask_alloc(NEGVASK_TABLES,
	uint8_t port, uint16_t reference, NEGVASK_CREDENTIAL,
	uint16_t hint, uint8_t count, uint16_t *places, size_t places_len);

/**
 * \brief Allocate blocks that adjoin below a reference block.
 *
 * Takes a run, any `count` free blocks that adjoin, also inside a longer
 * stretch: the one whose first block is nearest the hint, the lower on a
 * tie; without a hint the lowest. A run that exists is always found;
 * blocks with a waiting one among them are none. Each of its blocks is
 * filled with zeros, and the reference block points to it, once. Its
 * numbers are put in the first `count` places of `places`, ascending.
 * Unmodified: the places after the first `count`, keys, windows, and the
 * contents of all other blocks.
 *
 * The caller provides `places` with at least `count` places and keeps it.
 *
 * Refusals, in order:
 *   13  `port` is neither 0 nor 1; the credential is ill formed
 *   1   out of shape
 *   2   unsound
 *   4   `count` is 0 or above 64; `hint` is neither below N nor
 *       NEGVASK_NO_HINT; `places_len` is less than `count`
 *   3   `reference` is not below N or not allocated
 *   6   `reference` is a root and the call is a host's
 *   5   a host's credential does not open `reference` for writing
 *   10  fewer than `count` blocks are free
 *   14  no `count` free blocks adjoin
 *   11  M + `count` is above P
 *
 * \param port            NEGVASK_HOST or NEGVASK_SERVICE.
 * \param reference       the block that is to point to the new ones.
 * \param credential      17 bytes that open the block.
 * \param credential_len  17.
 * \param hint            a block number, or NEGVASK_NO_HINT.
 * \param count           how many, 1 to 64.
 * \param places          receives the numbers, ascending.
 * \param places_len      the number of places.
 * \return  0 or a refusal.
 */
uint32_t negvask_alloc_contig(NEGVASK_TABLES,
	uint8_t port, uint16_t reference, NEGVASK_CREDENTIAL,
	uint16_t hint, uint8_t count, uint16_t *places, size_t places_len);

/**
 * \brief Make a pointer from one block to another, or one more where there
 * is one.
 *
 * The pointer's multiplicity and the destination's count grow by 1. A
 * pointer that is not there is added with multiplicity 1, and M grows by
 * 1; one that is there takes no further place, so that this is done in a
 * full table too. Unmodified: flags, keys, windows, contents, and the
 * record but for M; for a pointer that is there, `pointers` and M too.
 *
 * Refusals, in order:
 *   13  `port` is neither 0 nor 1; a credential is ill formed
 *   1   out of shape
 *   2   unsound
 *   3   `source` is not below N or not allocated, then `destination`
 *   6   `destination` is a root; or `source` is one and the call is a
 *       host's
 *   5   a host's credential does not open `source` for writing, then
 *       `destination` for writing
 *   7   `source` equals `destination`, or the pointer's multiplicity is
 *       65,535
 *   11  the pointer is not there, and M equals P
 *
 * \param port            NEGVASK_HOST or NEGVASK_SERVICE.
 * \param source          the block that is to point.
 * \param credential      17 bytes that open it.
 * \param credential_len  17.
 * \param destination     the block to point to.
 * \param second          17 bytes that open the destination.
 * \param second_len      17.
 * \return  0 or a refusal.
 */
uint32_t negvask_create(NEGVASK_TABLES,
	uint8_t port, uint16_t source, NEGVASK_CREDENTIAL,
	uint16_t destination, const uint8_t *second, size_t second_len);

/**
 * \brief Take one pointer from a block to another away, and free the block
 * it led to if it was the last one.
 *
 * The pointer's multiplicity and the destination's count shrink by 1. At
 * multiplicity 0 the pointer gives up its place, and M shrinks by 1. At
 * count 0 the destination is freed: its keys and windows become 0, and its
 * flags 8, so that it waits. `*value` is set to 1 if it was freed, else to
 * 0. Unmodified: contents, those of a freed block too until it is swept,
 * and the rows of all other blocks; where the multiplicity does not become
 * 0, `pointers` and M too.
 *
 * Refusals, in order:
 *   13  `port` is neither 0 nor 1; the credential is ill formed
 *   1   out of shape
 *   2   unsound
 *   3   `source` is not below N or not allocated, then `destination`
 *   6   `source` is a root and the call is a host's
 *   5   a host's credential does not open `source` for writing
 *   8   there is no such pointer
 *   9   the destination's count is 1 and it has pointers of its own
 *
 * \param port            NEGVASK_HOST or NEGVASK_SERVICE.
 * \param source          the block that points.
 * \param credential      17 bytes that open it.
 * \param credential_len  17.
 * \param destination     the block pointed to.
 * \param value           receives 1 or 0; unmodified when refused.
 * \return  0 or a refusal.
 */
uint32_t negvask_delete(NEGVASK_TABLES,
	uint8_t port, uint16_t source, NEGVASK_CREDENTIAL,
	uint16_t destination, uint64_t *value);

/**
 * \brief Take a pointer from a block to another away wholly, and free the
 * blocks to which only freed ones point.
 *
 * The pointer goes, whatever its multiplicity. If nothing points to the
 * destination then, it is freed, and after it, again and again, each
 * allocated block that is no root and whose every pointer comes from freed
 * blocks. All pointers from freed blocks go, whatever their multiplicity.
 * M shrinks by the number of pointers that go, and the count of each block
 * that stays by the multiplicities of those that led to it. The keys,
 * counts and windows of freed blocks become 0, and their flags 8, so that
 * they wait. `*value` is set to how many were freed; at 0 the pointer is
 * gone all the same. Unmodified: contents, those of freed blocks too until
 * they are swept, and the rows of all other blocks but for their counts.
 *
 * The source may be freed too, where only freed blocks point to it. Where
 * the other pointers lead from the destination back to it, nothing is
 * freed: a cycle keeps itself.
 *
 * A write key protects the block that has it and whatever else would be
 * freed with it: the call is then refused 15 at both ports, also for one
 * who holds that key. A read key alone does not.
 *
 * Refusals, in order:
 *   13  `port` is neither 0 nor 1; the credential is ill formed
 *   1   out of shape
 *   2   unsound
 *   3   `source` is not below N or not allocated, then `destination`
 *   6   `source` is a root and the call is a host's
 *   5   a host's credential does not open `source` for writing
 *   8   there is no such pointer
 *   15  a block that would be freed has a write key, the destination
 *       perhaps
 *
 * \param port            NEGVASK_HOST or NEGVASK_SERVICE.
 * \param source          the block that points.
 * \param credential      17 bytes that open it.
 * \param credential_len  17.
 * \param destination     the block pointed to.
 * \param value           receives how many; unmodified when refused.
 * \return  0 or a refusal.
 */
uint32_t negvask_delete_tree(NEGVASK_TABLES,
	uint8_t port, uint16_t source, NEGVASK_CREDENTIAL,
	uint16_t destination, uint64_t *value);

/**
 * \brief Replace the read key of a block.
 *
 * The block's read key is set to the new key, or taken away if there is
 * none. Both windows of the block become 0, also where the new key is the
 * one that it had, or none. Unmodified: the write key, counts, pointers,
 * multiplicities, contents, the record, and the rows of all other blocks.
 *
 * A host needs what opens the block for writing: its write key or, without
 * one, a reference whose write window is open. The read key does not do.
 *
 * Refusals, in order:
 *   13  `port` is neither 0 nor 1; the credential or the new key is ill
 *       formed
 *   1   out of shape
 *   2   unsound
 *   3   `block` is not below N or not allocated
 *   6   `block` is a root and the call is a host's
 *   5   a host's credential does not open `block` for writing
 *
 * \param port            NEGVASK_HOST or NEGVASK_SERVICE.
 * \param block           the block's number.
 * \param credential      17 bytes that open the block.
 * \param credential_len  17.
 * \param key             17 bytes, the new read key or none.
 * \param key_len         17.
 * \return  0 or a refusal.
 */
uint32_t negvask_key_read(NEGVASK_TABLES,
	uint8_t port, uint16_t block, NEGVASK_CREDENTIAL,
	const uint8_t *key, size_t key_len);

/**
 * \brief Replace the write key of a block.
 *
 * The block's write key is set to the new key, or taken away if there is
 * none. Both windows of the block become 0, also where the new key is the
 * one that it had, or none. Unmodified: the read key, counts, pointers,
 * multiplicities, contents, the record, and the rows of all other blocks.
 *
 * A host needs what opens the block for writing: its present write key
 * or, without one, a reference whose write window is open. The read key
 * does not do.
 *
 * Refusals, in order:
 *   13  `port` is neither 0 nor 1; the credential or the new key is ill
 *       formed
 *   1   out of shape
 *   2   unsound
 *   3   `block` is not below N or not allocated
 *   6   `block` is a root and the call is a host's
 *   5   a host's credential does not open `block` for writing
 *
 * \param port            NEGVASK_HOST or NEGVASK_SERVICE.
 * \param block           the block's number.
 * \param credential      17 bytes that open the block.
 * \param credential_len  17.
 * \param key             17 bytes, the new write key or none.
 * \param key_len         17.
 * \return  0 or a refusal.
 */
uint32_t negvask_key_write(NEGVASK_TABLES,
	uint8_t port, uint16_t block, NEGVASK_CREDENTIAL,
	const uint8_t *key, size_t key_len);

/**
 * \brief Renew a window by a key, without reading or writing: a host's
 * call.
 *
 * The end of the block's window for the mode becomes the later of its
 * present end and T + `interval`, so that a done call may change nothing.
 * Unmodified: all else.
 *
 * Refusals, in order:
 *   13  the credential is ill formed or no key
 *   1   out of shape
 *   2   unsound
 *   4   `mode` is neither 0 nor 1; `interval` is 0 or above 86,400
 *   3   `block` is not below N or not allocated
 *   5   the block has no key for the mode, or this key does not open it
 *
 * \param mode      NEGVASK_RENEW_READ or NEGVASK_RENEW_WRITE.
 * \param block     the block's number.
 * \param key       a credential of 17 bytes that is a key.
 * \param key_len   17.
 * \param interval  seconds, 1 to 86,400.
 * \return  0 or a refusal.
 */
uint32_t negvask_renew(NEGVASK_TABLES,
	uint8_t mode, uint16_t block, const uint8_t *key, size_t key_len,
	uint32_t interval);

/**
 * \brief Close both windows of a block: a host's call, without a
 * credential.
 *
 * Both windows become 0. Unmodified: all else.
 *
 * Refusals, in order:
 *   1   out of shape
 *   2   unsound
 *   3   `block` is not below N or not allocated
 *
 * \param block  the block's number.
 * \return  0 or a refusal.
 */
uint32_t negvask_force(NEGVASK_TABLES, uint16_t block);

/**
 * \brief Count the free blocks.
 *
 * Those that wait are not among them; negvask_sweep() makes them free.
 * Unmodified: the record and all tables.
 *
 * Refusals, in order:
 *   1   out of shape
 *   2   unsound
 *
 * \param value  receives the number; unmodified when refused.
 * \return  0 or a refusal.
 */
uint32_t negvask_count_free(NEGVASK_TABLES, uint64_t *value);

/**
 * \brief Let time pass.
 *
 * T grows by `seconds`; 0 only tells it. The total grows by `seconds`
 * times the number of blocks that are allocated and no roots; those that
 * wait do not count. The firmware calls this as time passes, and any host
 * may send TICK too: T counts seconds that a host can let pass and nobody
 * can take back, and the total what is due for them. At the end, where
 * every further second is refused 12, no window ends by itself.
 * Unmodified: all tables, and the record but for T and the total.
 *
 * Refusals, in order:
 *   1   out of shape
 *   2   unsound
 *   12  T + `seconds` reaches 2^40
 *
 * \param seconds  any number.
 * \param value    receives the new T; unmodified when refused.
 * \return  0 or a refusal.
 */
uint32_t negvask_tick(NEGVASK_TABLES, uint64_t seconds, uint64_t *value);

/**
 * \brief Give the rent for the card in cents.
 *
 * `*cents` is set to the total times `price` divided by 86,400,000, and
 * rounded to the nearest, a half upward: a total of 43,200 at a price of
 * 1,000 is half a cent and gives 1, and 43,199 gives 0. Nothing is paid by
 * this: the total stays, from negvask_format() on. Unmodified: the record
 * and all tables.
 *
 * No record carries it. It asks for no credential, and what it gives
 * depends on the total alone, so the firmware may call it for any host.
 *
 * Refusals, in order:
 *   1   out of shape
 *   2   unsound
 *   16  `price` is above 2,000
 *
 * \param price  thousandths of a cent for a block and a day, 0 to 2,000.
 * \param cents  receives the rent; unmodified when refused.
 * \return  0 or a refusal.
 */
uint32_t negvask_rent(NEGVASK_TABLES, uint32_t price, uint64_t *cents);

/**
 * \brief Overwrite blocks that were freed, and make them free.
 *
 * The contents of the `most` lowest waiting blocks, or of all if fewer
 * wait, are filled with zeros, and their flags become 0. `*swept` is set
 * to how many they are: 0 where none waits or `most` is 0, and less than
 * `most` where none is left waiting. UINT32_MAX sweeps all. Unmodified:
 * the contents and flags of all other blocks, all other tables, and the
 * record.
 *
 * No record carries it, so nothing is swept unless the firmware calls it:
 * in idle time, a few blocks at a time, and before negvask_alloc() is to
 * have the room. It asks for no credential, and what it gives depends on
 * which blocks wait alone, so the firmware may call it at any time and for
 * any host.
 *
 * Takes the time of an audit and of filling these blocks.
 *
 * Refusals, in order:
 *   1   out of shape
 *   2   unsound
 *
 * \param most   at most so many blocks are swept; any number.
 * \param swept  receives how many; unmodified when refused.
 * \return  0 or a refusal.
 */
uint32_t negvask_sweep(NEGVASK_TABLES, uint32_t most, uint64_t *swept);

/**
 * \brief List the blocks within reach of a set of keys: the fitter's call,
 * never a host's.
 *
 * No record carries it, and nothing that a host sends may lead to it.
 * "What a set of keys opens" at the top of this file says what is within
 * reach, and what a block is that is not listed.
 *
 * The numbers are put in the first places of `places`, ascending, and
 * `*value` is set to how many they are; N places always do. Unmodified:
 * the places after these, the record and all tables, `given`.
 *
 * Takes time linear in N and P, where each block's keys are looked for
 * among those given.
 *
 * Refusals, in order:
 *   1   out of shape; the record has not six numbers
 *   2   unsound
 *   4   `given_len` is odd or above 128; `places_len` is less than the
 *       number of blocks within reach
 *
 * \param given       the keys' words: high, low, high, low and so on.
 * \param given_len   the number of words, twice that of the keys; may be 0.
 * \param places      receives the numbers, ascending.
 * \param places_len  the number of places.
 * \param value       receives how many; unmodified when refused.
 * \return  0 or a refusal.
 */
uint32_t negvask_reach(NEGVASK_TABLES_READ,
	const uint64_t *given, size_t given_len,
	uint16_t *places, size_t places_len, uint64_t *value);

/**
 * \brief List the sealed blocks whose write key would bring a hidden block
 * within reach of a set of keys: the fitter's call, never a host's.
 *
 * No record carries it, and nothing that a host sends may lead to it.
 * A block is listed if it is sealed, with the set as it is, and `block`
 * is within reach of the set with that block's write key added alone.
 *
 * The numbers are put in the first places of `places`, ascending, and
 * `*value` is set to how many they are, perhaps 0; N places always do.
 * Unmodified: the places after these, the record and all tables, `given`.
 *
 * Takes time linear in N and P, and that of comparing the keys of the
 * blocks from which pointers lead to `block`, by way of unsealed ones,
 * with the write key of each sealed block that is not among them.
 *
 * Refusals, in order:
 *   1   out of shape; the record has not six numbers
 *   2   unsound
 *   4   `given_len` is odd or above 128; `block` is within reach of the
 *       keys; `places_len` is less than the number of blocks to be listed
 *   3   `block` is not below N or not allocated: no block is to be listed
 *       for it, so that the keys alone can make it 4
 *
 * \param block       the hidden block's number.
 * \param given       the keys' words: high, low, high, low and so on.
 * \param given_len   the number of words, twice that of the keys; may be 0.
 * \param places      receives the numbers, ascending.
 * \param places_len  the number of places.
 * \param value       receives how many; unmodified when refused.
 * \return  0 or a refusal.
 */
uint32_t negvask_unlocking(NEGVASK_TABLES_READ,
	uint16_t block, const uint64_t *given, size_t given_len,
	uint16_t *places, size_t places_len, uint64_t *value);

/**
 * \brief Perform one call record that arrived at a port.
 *
 * A record that comes from a host goes here with NEGVASK_HOST, or into
 * the input of negvask_batch() with NEGVASK_HOST, and nowhere else.
 *
 * A record is one byte, its kind, and a body as long as the kind says;
 * `body` may be longer, and its further bytes are not looked at. Numbers
 * in a body are big-endian. Kinds, and the bytes of their bodies:
 *
 *    1  READ           23    block 2, credential 17, interval 4
 *    2  WRITE         535    block 2, credential 17, interval 4, data 512
 *    3  ALLOC          22    reference 2, credential 17, hint 2, count 1
 *    4  CREATE         38    source 2, credential 17, destination 2,
 *                            credential 17
 *    5  DELETE         21    source 2, credential 17, destination 2
 *    6  KEY_READ       36    block 2, credential 17, new read key 17
 *    7  RENEW          23    mode 1, block 2, key 16, interval 4
 *    8  FORCE           2    block 2
 *    9  FREE            0
 *   10  TICK            8    seconds 8
 *   11  AUDIT           0
 *   12  ALLOC_CONTIG   22    reference 2, credential 17, hint 2, count 1
 *   13  KEY_WRITE      36    block 2, credential 17, new write key 17
 *   14  DELETE_TREE    21    source 2, credential 17, destination 2
 *
 * These are a host's calls at either port, and judged as a host's. At
 * NEGVASK_SERVICE there are also kinds 129 to 134 and 140 to 142, which
 * are 1 to 6 and 12 to 14 as calls at the service port; at NEGVASK_HOST
 * these do not exist. Credentials and new keys are described at the top
 * of this file.
 *
 * The record's call is performed as by its function above, with `out`
 * lent to READ, `places` to ALLOC and ALLOC_CONTIG, and `value` to DELETE,
 * DELETE_TREE, FREE and TICK. WRITE by record needs blocks of 512 bytes:
 * its data are 512, and on a card with another B it is refused 4.
 *
 * Unmodified: what that function leaves unmodified, `body`, and the
 * buffers that the call does not use.
 *
 * Refusals, in order:
 *   13  `port` is neither 0 nor 1; a kind that does not exist at the
 *       port; a body cut short; in a credential or new key a wrong first
 *       byte or filler that is not zero
 *   1 to 12, 14 and 15  as the function of that call
 *
 * \param port        the port at which the record arrived: NEGVASK_HOST
 *                    if it comes from a host, else NEGVASK_SERVICE.
 * \param kind        the record's first byte.
 * \param body        the rest of the record.
 * \param body_len    the number of bytes in it.
 * \param out         receives READ's block.
 * \param out_len     the number of bytes; READ is refused 4 unless B.
 * \param places      receives the block numbers of ALLOC or ALLOC_CONTIG.
 * \param places_len  the number of places; these are refused 4 if less
 *                    than their count.
 * \param value       receives the result of DELETE, DELETE_TREE, FREE or
 *                    TICK.
 * \return  0 or a refusal.
 */
uint32_t negvask_serve(NEGVASK_TABLES,
	uint8_t port, uint8_t kind, const uint8_t *body, size_t body_len,
	uint8_t *out, size_t out_len, uint16_t *places, size_t places_len,
	uint64_t *value);

/**
 * \brief Perform many call records that arrived at a port, with one audit
 * of the card.
 *
 * Bytes that come from a host go here with NEGVASK_HOST, as they came, or
 * record by record to negvask_serve() with NEGVASK_HOST, and nowhere
 * else.
 *
 * `input` is one record after the other, each one byte of kind and then
 * its body, as for negvask_serve(). Each record is judged in this order,
 * and the batch stops at the first that holds:
 *
 *   13   a kind that does not exist at the port
 *   256  the input ends within the body
 *   13   in a credential or new key a wrong first byte or filler that is
 *        not zero
 *   257  `answers` has less room left than the longest answer takes:
 *        1 + B bytes for READ, 129 for ALLOC and ALLOC_CONTIG, 9 for
 *        DELETE, DELETE_TREE, FREE and TICK, 1 for the others
 *
 * So a malformed record is 13 even where there is no room for an answer.
 * Where a batch stops with 13, 256 or 257 it has performed the records
 * before, and nothing of that record is done. The caller goes on from
 * `input + *read`: after 256 with the bytes that follow, after 257 with
 * `answers` emptied. After 13 the session is over, since nothing tells
 * where the next record would start.
 *
 * Else the record is performed as by negvask_serve(), on the card that
 * the one before left, with B bytes lent to READ and 64 places to ALLOC
 * and ALLOC_CONTIG. Its answer is put behind the one before in `answers`:
 *
 *   1 byte    0 or a refusal 1 to 12, 14 or 15
 *   and, if it is 0,
 *   READ                             B bytes, the block
 *   ALLOC                            2 bytes for each number, in the order
 *                                    taken
 *   ALLOC_CONTIG                     2 bytes for each number, ascending
 *   DELETE, DELETE_TREE, FREE, TICK  8 bytes, the result
 *
 * Numbers are big-endian.
 *
 * The card is audited once and not before every record: what is answered
 * and what is left are the same. So a batch of many records on a large
 * card takes far less time than these one by one; README.md has figures.
 *
 * On a card that is out of shape or unsound, its `info` of six numbers,
 * the answer to each record is 1 or 2, and the batch goes on: it returns
 * 0 at the end of the input. B is then what `info` has, whatever that is;
 * if it is above 65,536, READ is lent nothing and asks for 1 byte of
 * room. So 257 may come with `*read` 0, however often a caller tries.
 *
 * Unmodified: what negvask_serve() leaves unmodified, `input`, and the
 * bytes of `answers` from `*written` on. If `port` is neither 0 nor 1, or
 * `info` has not six numbers: everything, and `*records`, `*read` and
 * `*written` too.
 *
 * \param port         the port at which the bytes arrived: NEGVASK_HOST
 *                     if they come from a host, else NEGVASK_SERVICE.
 * \param input        the records.
 * \param input_len    the number of bytes in it.
 * \param answers      receives the answers.
 * \param answers_len  the number of bytes; any.
 * \param records      receives how many records were performed.
 * \param read         receives how many bytes of `input` these are.
 * \param written      receives how many bytes of `answers` are written.
 * \return  why it stopped, a port that is neither 0 nor 1 before all else:
 *   0                   at the end of the input
 *   NEGVASK_MALFORMED   `port` is neither 0 nor 1; or a record is
 *                       malformed
 *   NEGVASK_SHAPE       the record `info` has not six numbers
 *   NEGVASK_CUT         the input ends within a record
 *   NEGVASK_FULL        there is no room for the next answer
 */
uint32_t negvask_batch(NEGVASK_TABLES,
	uint8_t port, const uint8_t *input, size_t input_len,
	uint8_t *answers, size_t answers_len,
	uint64_t *records, uint64_t *read, uint64_t *written);

#ifdef __cplusplus
}
#endif

#endif
