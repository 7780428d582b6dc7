/* What the C version hands to its caller, laid out once more in sets.rs. */

#pragma once

#include <stddef.h>
#include <stdint.h>

enum { MOST_DEVICES = 64, NOBODY = 255, LEVELS = 4 };

/* Number and place of a refusal. The number is 0 where nothing is refused. */
struct refusal {
	uint32_t number, place;
};

static inline struct refusal refuse(uint32_t number, uint32_t place)
{
	return (struct refusal){ number, place };
}

/* The devices of a board by number: first those in registers, then those on the bus, then the quiet ones. */
struct board {
	uint64_t names[MOST_DEVICES];
	uint64_t superiors[MOST_DEVICES], dependents[MOST_DEVICES];
	uint32_t words[MOST_DEVICES];
	uint8_t order[MOST_DEVICES];
	uint8_t n, registers, buses;
};

/* The direction is 1 for a lowering and -1 for a raising. */
struct entry {
	uint8_t device, phase;
	int8_t direction;
	int16_t code;
};

struct outcome {
	uint16_t kind, error, device, phase, taken;
};

struct report {
	struct board board;
	struct entry journal[2 * LEVELS * MOST_DEVICES];
	struct outcome outcome;
	uint16_t entries;
};

struct refusal sets_read(const uint8_t *file, size_t size, struct board *board);
struct refusal sets_run(const uint8_t *file, size_t size, const uint8_t *sheet, size_t cells, struct report *report);
struct refusal sets_what_if(const uint8_t *file, size_t size, uint8_t *sheet, size_t cells, uint8_t device, uint8_t level,
			    uint8_t byte, struct report *report);
