/* The rules of docs/FORMATS.md, docs/REFUSALS.md and docs/RULES.md as one would write them in C: for each device a 64-bit set
 * of its superiors and one of its dependents, everything in fixed arrays of the caller's, and no memory asked for. Here are the
 * board file and the order; runs are in setruns.c. */

#include "sets.h"
#include <stdbool.h>
#include <string.h>

enum { TRAILER = 16, MOST_BYTES = 4096, MOST_LINKS = 256 };

static uint32_t load16(const uint8_t *p)
{
	return p[0] | (uint32_t)p[1] << 8;
}

static uint32_t load32(const uint8_t *p)
{
	return load16(p) | load16(p + 2) << 16;
}

static uint64_t load64(const uint8_t *p)
{
	return load32(p) | (uint64_t)load32(p + 4) << 32;
}

static uint64_t bit(unsigned d)
{
	return UINT64_C(1) << d;
}

/* The board file's tables: where they begin, and how many links there are. */
struct tables {
	size_t devices, links, m;
};

static struct refusal find_tables(const uint8_t *file, size_t size, struct board *board, struct tables *tables)
{
	if (size < TRAILER || size > MOST_BYTES)
		return refuse(1, 0);
	size_t t = size - TRAILER;
	const uint8_t *trailer = file + t;
	if (memcmp(trailer, "SLPB\1", 5) != 0)
		return refuse(2, t);
	size_t n = trailer[5] + trailer[6] + trailer[7], m = load16(trailer + 8);
	if (n == 0 || n > MOST_DEVICES || m > MOST_LINKS || load16(trailer + 10) != 0)
		return refuse(3, t);
	size_t d = load16(trailer + 12), l = load16(trailer + 14);
	if (d < 16 * n || d > t || l < 4 * m || l > t)
		return refuse(4, t);
	if (m > 0 && t - d < t - l + 4 * m && t - l < t - d + 16 * n)
		return refuse(4, t);
	*tables = (struct tables){ t - d, t - l, m };
	board->n = n;
	board->registers = trailer[5];
	board->buses = trailer[6];
	return refuse(0, 0);
}

static bool is_letter(uint8_t byte)
{
	return byte >= 'a' && byte <= 'z';
}

static bool is_digit(uint8_t byte)
{
	return byte >= '0' && byte <= '9';
}

static bool is_name(const uint8_t *name)
{
	int i = 1;
	if (!is_letter(name[0]))
		return false;
	while (i < 8 && (is_letter(name[i]) || is_digit(name[i])))
		i++;
	while (i < 8 && name[i] == 0)
		i++;
	return i == 8;
}

static bool is_known(uint64_t name, const uint64_t *names, unsigned count)
{
	for (unsigned i = 0; i < count; i++)
		if (names[i] == name)
			return true;
	return false;
}

static void add_superior(struct board *board, unsigned device, unsigned superior)
{
	board->superiors[device] |= bit(superior);
	board->dependents[superior] |= bit(device);
}

static struct refusal read_devices(const uint8_t *file, const struct tables *tables, struct board *board)
{
	unsigned n = board->n;
	const uint8_t *record = file + tables->devices;
	for (unsigned i = 0; i < n; i++, record += 16) {
		uint64_t name = load64(record);
		uint32_t parent = load32(record + 8);
		bool is_right = parent == NOBODY || (parent < n && parent != i);
		if (!is_right || !is_name(record) || is_known(name, board->names, i))
			return refuse(5, record - file);
		board->names[i] = name;
		board->words[i] = load32(record + 12);
		if (parent != NOBODY)
			add_superior(board, i, parent);
	}
	return refuse(0, 0);
}

static struct refusal read_links(const uint8_t *file, const struct tables *tables, struct board *board)
{
	unsigned n = board->n;
	const uint8_t *record = file + tables->links, *end = record + 4 * tables->m;
	for (; record < end; record += 4) {
		unsigned consumer = record[0], supplier = record[1];
		if (consumer >= n || supplier >= n || consumer == supplier || load16(record + 2) != 0)
			return refuse(6, record - file);
		add_superior(board, consumer, supplier);
	}
	return refuse(0, 0);
}

/* Places the least device that is ready, and then looks at its dependents, which may have become ready. */
static struct refusal make_order(struct board *board)
{
	uint64_t left = UINT64_MAX >> (MOST_DEVICES - board->n), ready = 0;
	for (unsigned d = 0; d < board->n; d++)
		if (board->superiors[d] == 0)
			ready |= bit(d);
	for (unsigned place = 0; ready != 0; place++) {
		unsigned placed = __builtin_ctzll(ready);
		ready &= ready - 1;
		left &= ~bit(placed);
		board->order[place] = placed;
		for (uint64_t rest = board->dependents[placed]; rest != 0; rest &= rest - 1) {
			unsigned d = __builtin_ctzll(rest);
			if ((board->superiors[d] & left) == 0)
				ready |= bit(d);
		}
	}
	return left == 0 ? refuse(0, 0) : refuse(7, __builtin_ctzll(left));
}

/* Reads the board of a board file, with its order, or answers the refusal. */
struct refusal sets_read(const uint8_t *file, size_t size, struct board *board)
{
	struct tables tables;
	struct refusal refusal = find_tables(file, size, board, &tables);
	if (refusal.number != 0)
		return refusal;
	memset(board->superiors, 0, board->n * sizeof board->superiors[0]);
	memset(board->dependents, 0, board->n * sizeof board->dependents[0]);
	refusal = read_devices(file, &tables, board);
	if (refusal.number == 0)
		refusal = read_links(file, &tables, board);
	if (refusal.number == 0)
		refusal = make_order(board);
	return refusal;
}
