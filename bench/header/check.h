/* Two header checks written by hand: by a table of 256 octets in memory, and by shifts. */
#ifndef CHECK_H
#define CHECK_H
#include <stdint.h>

enum outcome { as_it_came, mended, dropped };

/* The check of the header at `cell`, in the mode at `mode`, which it moves on. A mended header goes to `header`. */
enum outcome check_by_table(const uint8_t *cell, uint16_t *mode, uint8_t *header);
enum outcome check_by_shifts(const uint8_t *cell, uint16_t *mode, uint8_t *header);

/* Fills the tables; to be called once. */
void make_tables(void);

#endif
