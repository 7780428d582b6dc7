/* The rules of docs/RULES.md for banks, the engine, a run and a what-if as one would write them in C. */

#include "sets.h"
#include <errno.h>

/* The devices' piles of words, with the cells of the fault sheet. */
struct bank {
	uint32_t piles[MOST_DEVICES][LEVELS + 1];
	uint8_t levels[MOST_DEVICES];
	unsigned controller, quiet;
	const uint8_t *cells;
};

static void fill_bank(struct bank *bank, const struct board *board, const uint8_t *cells)
{
	for (unsigned d = 0; d < board->n; d++) {
		bank->piles[d][0] = board->words[d];
		bank->levels[d] = 0;
	}
	bank->controller = board->registers;
	bank->quiet = board->registers + board->buses;
	bank->cells = cells;
}

/* The errno that a device gives if it is lowered now, 0 for none: its cell's, or else its bank's. */
static unsigned hindrance(const struct bank *bank, unsigned d)
{
	unsigned level = bank->levels[d], cell = bank->cells[LEVELS * d + level];
	uint32_t word = bank->piles[d][level];
	if (cell != 0)
		return cell;
	if (d < bank->controller)
		return level == 1 && word >> 31 != 0 ? EBUSY : 0;
	if (d == bank->controller || d >= bank->quiet)
		return 0;
	unsigned above = bank->levels[bank->controller];
	if (above >= 2 && above > level)
		return EIO;
	return level == 1 && (word & 0xFF) != 0 ? EBUSY : 0;
}

static void lower(struct bank *bank, unsigned d)
{
	static const uint32_t kept[LEVELS + 1] = { 0, 0xFFFFFFFF, 0xFFFF0000, 0xFF000000, 0 };
	unsigned level = ++bank->levels[d];
	uint32_t word = bank->piles[d][level - 1];
	if (d < bank->controller)
		word &= kept[level];
	else if (d < bank->quiet && level == LEVELS)
		word = 0;
	bank->piles[d][level] = word;
}

/* All lowerings, up to the first that is hindered. */
static void descend(struct report *report, struct bank *bank)
{
	unsigned n = report->board.n, taken = 0;
	for (unsigned phase = 1; phase <= LEVELS; phase++)
		for (unsigned i = 0; i < n; i++, taken++) {
			unsigned d = report->board.order[phase == 1 ? i : n - 1 - i];
			unsigned error = hindrance(bank, d);
			report->journal[taken] = (struct entry){ d, phase, 1, -(int)error };
			if (error != 0) {
				report->outcome = (struct outcome){ 1, error, d, phase, taken };
				report->entries = taken + 1;
				return;
			}
			lower(bank, d);
		}
	report->outcome = (struct outcome){ 0, 0, NOBODY, 0, taken };
	report->entries = taken;
}

/* Raises whatever is lowered: the way down once more, from its end. */
static void ascend(struct report *report, struct bank *bank)
{
	struct entry *end = report->journal + report->entries;
	for (unsigned k = report->outcome.taken; k > 0; k--) {
		struct entry down = report->journal[k - 1];
		bank->levels[down.device]--;
		*end++ = (struct entry){ down.device, down.phase, -1, 0 };
	}
	report->entries = end - report->journal;
}

static void run_board(struct report *report, const uint8_t *cells)
{
	struct bank bank;
	fill_bank(&bank, &report->board, cells);
	descend(report, &bank);
	ascend(report, &bank);
}

static struct refusal read_both(const uint8_t *file, size_t size, size_t cells, struct report *report)
{
	struct refusal refusal = sets_read(file, size, &report->board);
	if (refusal.number == 0 && cells != (size_t)LEVELS * report->board.n)
		return refuse(8, 0);
	return refusal;
}

/* The run of a board file with a fault sheet, or its refusal. */
struct refusal sets_run(const uint8_t *file, size_t size, const uint8_t *sheet, size_t cells, struct report *report)
{
	struct refusal refusal = read_both(file, size, cells, report);
	if (refusal.number == 0)
		run_board(report, sheet);
	return refusal;
}

/* The run with this byte in the cell of the device for the level. The cell has its old byte again afterwards. */
struct refusal sets_what_if(const uint8_t *file, size_t size, uint8_t *sheet, size_t cells, uint8_t device, uint8_t level,
			    uint8_t byte, struct report *report)
{
	struct refusal refusal = read_both(file, size, cells, report);
	if (refusal.number != 0)
		return refusal;
	if (device >= report->board.n)
		return refuse(12, device);
	if (level < 1 || level > LEVELS)
		return refuse(13, 0);
	uint8_t *cell = sheet + LEVELS * device + level - 1, old = *cell;
	*cell = byte;
	run_board(report, sheet);
	*cell = old;
	return refusal;
}
