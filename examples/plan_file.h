/* Plan files: text for people, one step a line.
 *
 *     set DEVICE AT VALUE
 *     add DEVICE AT UP DEEP NAME VALUE
 *     remove DEVICE AT
 *
 * Numbers are decimal, without leading zeros. VALUE is written as in a pool file: -2147483648 to 2147483647, below
 * zero with a minus sign. All others are 0 to 4294967295, without sign. Spaces, tabs and carriage returns stand
 * between words, and may stand before and behind them. From # on a line is a comment. Lines without a step are skipped.
 * There is no limit to the number of lines or to the length of a comment.
 */
#ifndef PLAN_FILE_H
#define PLAN_FILE_H

#include "gabzeril.h"

struct plan {
    uint32_t *words; /* GABZERIL_STEP_WORDS for each step */
    size_t *lines;   /* the line of each step in the file, from 1 */
    size_t steps;
};

/* Reads a plan file. It ends the program, with the status of files.h, if the file cannot be read or a line is no
 * step; it names the first such line. The memory is kept until the program ends. */
void load_plan(const char *path, struct plan *plan);

enum { STEP_BYTES = 80 }; /* the text of any step: at most 70 bytes and the 0 at its end */

/* Writes a step as it stands in a plan file, with one space between the words. Returns its length. */
int step_text(const uint32_t *step, char text[STEP_BYTES]);

#endif
