/*
 * Draws a card for a set of keys, as SVG on standard output: its blocks, keys and pointers, what is within reach of a
 * host that presents these keys, what is hidden from it, and which sealed blocks' write keys would open a chosen block.
 *
 *   cc -I include examples/draw.c path/to/libinterface.a -o draw
 *   sessions/assemble FILE | ./draw [--block B] [KEY ..]
 *
 * Standard input has call records, as they come at the service port; they are played on a fresh card like that of the
 * player. A KEY has 32 hex digits. The picture has no digits of a key: keys are numbered as they stand on the card.
 *
 * Exit status 1 where the input is malformed or the library refuses, 2 where an argument is wrong.
 */
#include <stdio.h>
#include <stdlib.h>
#include <string.h>
#include "negvask.h"

#define BLOCKS NEGVASK_BLOCKS_MIN
#define BYTES  NEGVASK_BLOCK_BYTES_MIN
#define PLACES 32

NEGVASK_STORAGE(card, BLOCKS, BYTES, PLACES);
#define CARD NEGVASK_LEND(&card)

/* ---- What is asked. There is room for one key more than may be given, so that the library refuses it. */

#define NO_BLOCK 65536L

static uint64_t given[2 * (NEGVASK_KEYS_MAX + 1)];
static size_t given_len;
static long chosen = NO_BLOCK;

/* Takes a key of 32 hex digits, with 0x before them or not; 0 where it is none. */
static int take_key(const char *text)
{
	static const char digits[] = "0123456789abcdef0123456789ABCDEF";
	const char *digit;
	size_t i;

	text += strncmp(text, "0x", 2) == 0 ? 2 : 0;
	if (strlen(text) != 32 || given_len + 2 > sizeof given / sizeof *given)
		return 0;
	for (i = 0; i < 32; i++) {
		digit = strchr(digits, text[i]);
		if (digit == NULL)
			return 0;
		given[given_len + i / 16] = given[given_len + i / 16] << 4 | (uint64_t)((digit - digits) % 16);
	}
	given_len += 2;
	return 1;
}

/* Takes the number of the chosen block; 0 where it is none. */
static int take_block(const char *text)
{
	char *end;

	chosen = strtol(text, &end, 10);
	return end != text && *end == 0 && chosen >= 0 && chosen < NO_BLOCK;
}

/* Takes all arguments; 0 where one is wrong. */
static int take(int count, char **words)
{
	int i, fine = 1;

	for (i = 1; i < count && fine; i++) {
		if (strcmp(words[i], "--block") != 0)
			fine = take_key(words[i]);
		else
			fine = ++i < count && take_block(words[i]);
	}
	return fine;
}

/* ---- The card, and the two lists. */

/* Performs the records of standard input; what the last batch stopped by. */
static uint32_t play(void)
{
	static uint8_t input[NEGVASK_RECORD_MAX], answers[NEGVASK_ANSWER_MAX(BYTES)];
	size_t held = 0, more = 0;
	uint64_t records, read, written;
	uint32_t stop;

	do {
		held += more;
		stop = negvask_batch(CARD, NEGVASK_SERVICE, input, held, answers, sizeof answers,
			&records, &read, &written);
		held -= (size_t)read;
		memmove(input, input + read, held);
		if (stop == NEGVASK_MALFORMED)
			return stop;
		more = stop == NEGVASK_FULL ? 0 : fread(input + held, 1, sizeof input - held, stdin);
	} while (more > 0 || stop == NEGVASK_FULL);
	return stop;
}

static uint16_t within[BLOCKS], unlocking[BLOCKS];
static uint64_t within_count, unlocking_count;

/* Asks for the lists: the first refusal. */
static uint32_t ask(void)
{
	const uint32_t answer = negvask_reach(CARD, given, given_len, within, BLOCKS, &within_count);

	if (answer != NEGVASK_DONE || chosen == NO_BLOCK)
		return answer;
	return negvask_unlocking(CARD, (uint16_t)chosen, given, given_len, unlocking, BLOCKS, &unlocking_count);
}

static int listed(const uint16_t *list, uint64_t count, int block)
{
	uint64_t i;

	for (i = 0; i < count; i++)
		if (list[i] == block)
			return 1;
	return 0;
}

static int allocated(int block)
{
	return card.flags[block] & 1;
}

static int allocated_count(void)
{
	int block, count = 0;

	for (block = 0; block < BLOCKS; block++)
		count += allocated(block);
	return count;
}

static int has_window(int block)
{
	return card.info[4] < card.windows[2 * block] || card.info[4] < card.windows[2 * block + 1];
}

/* Whether a block has a read key, for half 0, or a write key, for half 1. */
static int has_key(int block, int half)
{
	return (card.flags[block] >> (1 + half)) & 1;
}

static const uint64_t *key_of(int block, int half)
{
	return card.keys + 4 * block + 2 * half;
}

/* Where a key stands among so many words of keys, from 0 on; one that is not there stands behind them. */
static size_t place_of(const uint64_t *key, const uint64_t *words, size_t len)
{
	size_t i;

	for (i = 0; i < len; i += 2)
		if (words[i] == key[0] && words[i + 1] == key[1])
			break;
	return i / 2;
}

static int is_given(int block, int half)
{
	return has_key(block, half) && place_of(key_of(block, half), given, given_len) < given_len / 2;
}

static int is_sealed(int block)
{
	return has_key(block, 0) && has_key(block, 1) && !is_given(block, 0) && !is_given(block, 1);
}

/* The keys on the card, each once, in the order of the blocks. */
static uint64_t known[4 * BLOCKS];
static size_t known_len;

static void number_keys(void)
{
	const uint64_t *key;
	int i;

	for (i = 0; i < 2 * BLOCKS; i++) {
		key = key_of(i / 2, i % 2);
		if (has_key(i / 2, i % 2) && place_of(key, known, known_len) == known_len / 2) {
			known[known_len++] = key[0];
			known[known_len++] = key[1];
		}
	}
}

/* How many given keys no block has. */
static int strange_keys(void)
{
	int count = 0;
	size_t i;

	for (i = 0; i < given_len; i += 2)
		count += place_of(given + i, known, known_len) == known_len / 2;
	return count;
}

/* ---- Where the blocks stand: in columns by their distance from the roots, in the order in which they are found. */

static int column[BLOCKS], row[BLOCKS];
/* One column more, for the lost blocks, to which no way leads from a root. */
static int filled[BLOCKS + 1];
static int order[BLOCKS], placed, columns, rows;
static int lost = BLOCKS;

static void stand(int block, int at)
{
	order[placed++] = block;
	column[block] = at;
	row[block] = filled[at]++;
	columns = at + 1 > columns ? at + 1 : columns;
	rows = filled[at] > rows ? filled[at] : rows;
}

static int stands(int block)
{
	int i;

	for (i = 0; i < placed; i++)
		if (order[i] == block)
			return 1;
	return 0;
}

static int source_of(uint64_t i)
{
	return (int)(card.pointers[i] >> 16);
}

static int destination_of(uint64_t i)
{
	return (int)(card.pointers[i] & 65535);
}

static void stand_below(int block)
{
	uint64_t i;

	for (i = 0; i < card.info[3]; i++)
		if (source_of(i) == block && !stands(destination_of(i)))
			stand(destination_of(i), column[block] + 1);
}

static void stand_lost(void)
{
	int block;

	lost = columns;
	for (block = 0; block < BLOCKS; block++)
		if (allocated(block) && !stands(block))
			stand(block, lost);
}

static void stand_roots(void)
{
	int i;

	for (i = 0; i < (int)card.info[1]; i++)
		stand(i, 0);
}

static void stand_all(void)
{
	int i;

	stand_roots();
	for (i = 0; i < placed; i++)
		stand_below(order[i]);
	stand_lost();
}

/* ---- The drawing. */

#define BOX    148
#define TALL    70
#define GAP     92
#define PITCH  122
#define LEFT    24
#define TOP    124
#define LANE    14
#define WIDEST 760

static int left_of(int block)
{
	return LEFT + column[block] * (BOX + GAP);
}

static int top_of(int block)
{
	return TOP + row[block] * PITCH + (rows - filled[column[block]]) * PITCH / 2;
}

/* How far the lines around a block reach. */
static int margin_of(int block)
{
	return has_window(block) ? 13 : 7;
}

static void text(int x, int y, const char *kind, const char *words)
{
	printf("<text x=\"%d\" y=\"%d\" class=\"%s\">%s</text>\n", x, y, kind, words);
}

static void rectangle(int x, int y, int width, int height, const char *kind)
{
	printf("<rect x=\"%d\" y=\"%d\" width=\"%d\" height=\"%d\" class=\"%s\"/>\n", x, y, width, height, kind);
}

/* A box with the lines around it. */
static void frame(int x, int y, int width, int height, const char *kind, int sealed, int window)
{
	rectangle(x, y, width, height, kind);
	if (sealed)
		rectangle(x - 4, y - 4, width + 8, height + 8, "line");
	if (window)
		rectangle(x - 10, y - 10, width + 20, height + 20, "window");
}

/* A line of a block's text: its read key or its write key. */
static void key_line(int block, int half, int x, int y)
{
	char words[48];

	if (!has_key(block, half))
		return;
	snprintf(words, sizeof words, "%s key %u%s", half == 0 ? "read" : "write",
		(unsigned)(1 + place_of(key_of(block, half), known, known_len)), is_given(block, half) ? ", given" : "");
	text(x, y, is_given(block, half) ? "middle given" : "middle", words);
}

/* What stands below a block: that it is chosen, or that its write key would open the chosen one. */
static void note(int block, int x, int y)
{
	const int opens = listed(unlocking, unlocking_count, block);
	char words[48];

	if (block == chosen)
		text(x, y, "middle mark", opens ? "chosen; own write key" : "chosen");
	if (block != chosen && opens) {
		snprintf(words, sizeof words, "write key opens %ld", chosen);
		text(x, y, "middle mark", words);
	}
}

static void draw_block(int block)
{
	const int x = left_of(block), y = top_of(block), middle = x + BOX / 2;
	const int reached = listed(within, within_count, block);
	char words[48];

	frame(x, y, BOX, TALL, reached ? "reached" : "hidden", is_sealed(block), has_window(block));
	if (block == chosen || listed(unlocking, unlocking_count, block))
		rectangle(x, y, BOX, TALL, block == chosen ? "chosen" : "opener");
	rectangle(x + 9, y + 8, BOX - 18, TALL - 16, "inner");
	snprintf(words, sizeof words, "block %d%s", block, block < (int)card.info[1] ? ", root" : "");
	text(middle, y + 24, "middle block", words);
	if (!has_key(block, 0) && !has_key(block, 1))
		text(middle, y + 40, "middle", "no key");
	key_line(block, 0, middle, y + 40);
	key_line(block, 1, middle, y + (has_key(block, 0) ? 56 : 40));
	note(block, middle, y + TALL + 26);
}

/* The lines below all blocks that are in use: a way back over more than one column goes along one. */
static int lanes;

static void draw_way_back(int source, int destination)
{
	const int x = left_of(source) - margin_of(source), y = top_of(source) + 60;
	const int u = left_of(destination) + BOX + margin_of(destination), v = top_of(destination) + 60;
	const int lane = TOP + rows * PITCH + LANE * lanes, side = 12 + 4 * (lanes % 8);

	printf("<path d=\"M%d %dH%dV%dH%dV%dH%d\" class=\"pointer\"/>\n", x, y, x - side, lane, u + side, v, u);
	lanes++;
}

/* A pointer lies between two columns, so that it crosses no block. */
static void draw_pointer(int source, int destination)
{
	const int steps = column[destination] - column[source];
	const int x = left_of(source), y = top_of(source), u = left_of(destination), v = top_of(destination);
	const int right = x + BOX + margin_of(source), beside = u + BOX + margin_of(destination);

	if (steps == 1)
		printf("<path d=\"M%d %dL%d %d\" class=\"pointer\"/>\n", right, y + 28, u - margin_of(destination), v + 28);
	else if (steps == 0)
		printf("<path d=\"M%d %dC%d %d %d %d %d %d\" class=\"pointer\"/>\n", right, y + 44,
			x + BOX + 64, y + 44, x + BOX + 64, v + 44, beside, v + 44);
	else if (steps == -1)
		printf("<path d=\"M%d %dL%d %d\" class=\"pointer\"/>\n", x - margin_of(source), y + 50, beside, v + 50);
	else
		draw_way_back(source, destination);
}

static void draw_pointers(void)
{
	uint64_t i;

	for (i = 0; i < card.info[3]; i++)
		draw_pointer(source_of(i), destination_of(i));
}

static void draw_blocks(void)
{
	int i;

	for (i = 0; i < placed; i++)
		draw_block(order[i]);
}

/* What stands over each column. */
static void draw_columns(void)
{
	char words[48];
	int i;

	for (i = 0; i < columns; i++) {
		snprintf(words, sizeof words, "%d pointer%s from a root", i, i == 1 ? "" : "s");
		text(LEFT + i * (BOX + GAP) + BOX / 2, TOP - 24, "middle",
			i == 0 ? "roots" : i == lost ? "no way from a root" : words);
	}
}

/* The numbers of the blocks whose write key would open the chosen one. */
static void draw_openers(int y)
{
	uint64_t i;

	printf("<text x=\"%d\" y=\"%d\">block %ld would be within reach too with the write key of %s", LEFT, y, chosen,
		unlocking_count == 0 ? "no sealed block" : unlocking_count == 1 ? "block" : "one of the blocks");
	for (i = 0; i < unlocking_count; i++)
		printf("%s %u", i == 0 ? "" : ",", (unsigned)unlocking[i]);
	printf("</text>\n");
}

static void draw_head(void)
{
	char words[160];

	snprintf(words, sizeof words, "keys given: %u; blocks within reach: %u, hidden: %u, unallocated: %u", (unsigned)(given_len / 2),
		(unsigned)within_count, (unsigned)(allocated_count() - (int)within_count),
		(unsigned)(BLOCKS - allocated_count()));
	text(LEFT, 26, "head", words);
	if (chosen != NO_BLOCK)
		draw_openers(48);
	if (strange_keys() > 0) {
		snprintf(words, sizeof words, "keys given that no block has: %d", strange_keys());
		text(LEFT, 70, "", words);
	}
}

static const struct {
	const char *kind;
	const char *over;
	int sealed;
	int window;
	const char *words;
} entries[] = {
	{ "reached", "", 0, 0, "within reach of a host that presents the keys given" },
	{ "hidden", "", 0, 0, "hidden from it: nothing that it is answered depends on what the block holds" },
	{ "reached", "", 0, 1, "broken line: a window of the block is open" },
	{ "hidden", "", 1, 0, "second line: sealed, that is with a read key and a write key, neither of them given" },
	{ "hidden", "opener", 1, 0, "the write key of this block, added alone, would bring the chosen block within reach" },
	{ "hidden", "chosen", 0, 0, "the chosen block" }
};
#define ENTRIES (chosen == NO_BLOCK ? 4 : 6)

static void draw_legend(int top)
{
	int i;

	for (i = 0; i < ENTRIES; i++) {
		frame(LEFT + 10, top + 30 * i, 30, 10, entries[i].kind, entries[i].sealed, entries[i].window);
		if (*entries[i].over != 0)
			rectangle(LEFT + 10, top + 30 * i, 30, 10, entries[i].over);
		text(LEFT + 64, top + 30 * i + 10, "", entries[i].words);
	}
	text(LEFT, top + 30 * i + 10, "", "equal keys have one number");
}

static void draw_start(int width, int height)
{
	printf("<svg xmlns=\"http://www.w3.org/2000/svg\" width=\"%d\" height=\"%d\" viewBox=\"0 0 %d %d\" role=\"img\">\n",
		width, height, width, height);
	puts("<title>What is within reach of a set of keys, and what is hidden from it</title>");
	puts("<style>text{font:13px sans-serif;fill:#000}.middle{text-anchor:middle}.head,.block,.given,.mark{font-weight:bold}\n"
		".reached{fill:#bfe3c0;stroke:#000;stroke-width:1.5}.hidden{fill:url(#hatch);stroke:#000;stroke-width:1.5}\n"
		".inner{fill:#fff}.line{fill:none;stroke:#000;stroke-width:1.5}.paper{fill:#fff}\n"
		".window{fill:none;stroke:#000;stroke-width:3;stroke-dasharray:8 5}.opener{fill:none;stroke:#d06000;stroke-width:5}\n"
		".chosen{fill:none;stroke:#0050b0;stroke-width:5}.pointer{fill:none;stroke:#000;stroke-width:1.3;marker-end:url(#tip)}"
		"</style>");
	puts("<defs><pattern id=\"hatch\" width=\"8\" height=\"8\" patternUnits=\"userSpaceOnUse\" patternTransform=\"rotate(45)\">\n"
		"<rect width=\"8\" height=\"8\" fill=\"#d8d8d8\"/><rect width=\"2\" height=\"8\" fill=\"#505050\"/></pattern>\n"
		"<marker id=\"tip\" markerWidth=\"9\" markerHeight=\"8\" refX=\"8\" refY=\"4\" orient=\"auto\">"
		"<path d=\"M0 0L9 4L0 8z\"/></marker></defs>");
	rectangle(0, 0, width, height, "paper");
}

/* How many pointers go back over more than one column. */
static int ways_back(void)
{
	int count = 0;
	uint64_t i;

	for (i = 0; i < card.info[3]; i++)
		count += column[destination_of(i)] < column[source_of(i)] - 1;
	return count;
}

static void draw(void)
{
	const int wide = 2 * LEFT + columns * (BOX + GAP);
	const int below = TOP + rows * PITCH + LANE * ways_back() + 16;

	draw_start(wide > WIDEST ? wide : WIDEST, below + 30 * ENTRIES + 30);
	draw_head();
	draw_columns();
	draw_pointers();
	draw_blocks();
	draw_legend(below);
	puts("</svg>");
}

int main(int count, char **words)
{
	uint32_t answer;

	if (!take(count, words)) {
		fputs("usage: draw [--block B] [KEY ..] < RECORDS, a KEY in 32 hex digits\n", stderr);
		return 2;
	}
	negvask_format(CARD, BLOCKS, NEGVASK_ROOTS_MIN, BYTES);
	answer = play();
	if (answer != NEGVASK_DONE) {
		fprintf(stderr, "draw: the records stop with %u\n", (unsigned)answer);
		return 1;
	}
	answer = ask();
	if (answer != NEGVASK_DONE) {
		fprintf(stderr, "draw: refused %u, which include/negvask.h explains\n", (unsigned)answer);
		return 1;
	}
	number_keys();
	stand_all();
	draw();
	return 0;
}
