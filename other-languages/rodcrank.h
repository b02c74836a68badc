/* Rodcrank for C: link target/staticlib/librodcrank.a (see README.md here).
 *
 * Every function may be called with any bytes and any numbers. None keeps a pointer, allocates, or writes anything but the caller's
 * answer or text, so all of them may be called from several threads at once. The caller owns all memory. What is lent must be readable
 * for its whole length, and what is written must not overlap it; bytes of length 0 may be NULL.
 *
 * A file is a case file, byte for byte. t is the absence number. A limit is the most trials that a search may use. A set of people is
 * two words, the low one first: bit v of the low word for person v, bit v - 64 of the high word for a person v above 63.
 *
 * A position is the steps done, two bytes an entry: the step, then the person who did it. A last byte without its pair is an entry too.
 * With as many entries as steps, or more, a position is refused by 13 at the step count; else by 13 at its first entry that is wrong.
 * Today steps are done in the order listed, so entry i is of step i, and an entry of another step, or without its person, is wrong.
 *
 * A call that is refused leaves number and place in the answer, and 0 in every other field. docs/SCOPE.md has the table of refusals.
 */
#ifndef RODCRANK_H
#define RODCRANK_H

#include <stddef.h>
#include <stdint.h>

#ifdef __cplusplus
extern "C" {
#endif

#define RODCRANK_VERSION 2 /* of this header; 1 had no rodcrank_one_shot, and a shorter text */
#define RODCRANK_PEOPLE 32 /* the most people of a case */
#define RODCRANK_STEPS 8   /* the most steps; part of the answer's layout */
#define RODCRANK_FILE 1016 /* bytes of the longest file */
#define RODCRANK_TEXT 560  /* bytes of the longest text of rodcrank_verdicts */

/* A set of people. */
typedef struct rodcrank_people {
    uint64_t low;
    uint64_t high;
} rodcrank_people;

/* The answer, the same for every question. What an answer does not have is 0. */
typedef struct rodcrank_answer {
    uint64_t refused;              /* the refusal's number, 1 to 14; 0 where nothing is refused */
    uint64_t place;                /* the refusal's place */
    uint64_t said;                 /* one of the five below; 0 where refused */
    uint64_t trials;               /* how many trials the walk took; with RODCRANK_LIMIT the limit */
    rodcrank_people people;        /* the set that a verdict's NO shows, or that away names */
    uint64_t step;                 /* the step that advice names */
    uint64_t person;               /* the person whom advice names */
    uint64_t way;                  /* the number of the way that decided, from 0: a case has one way through */
    uint64_t steps;                /* how many steps the plan has */
    uint64_t plan[RODCRANK_STEPS]; /* its persons, step by step */
} rodcrank_answer;

/* What is said. */
#define RODCRANK_LIMIT 1  /* the walk needs more trials than the limit */
#define RODCRANK_YES 2
#define RODCRANK_NO 3
#define RODCRANK_NOBODY 4 /* advice: nobody will do; away: more than t people will do */
#define RODCRANK_NAMED 5  /* advice names `step` and `person`, away names `people` */

/* Is the file good? YES, or refused by 1 to 11. */
void rodcrank_judge(const uint8_t *file, size_t file_len, rodcrank_answer *answer);

/* Is there a plan? YES with the plan, NO, or LIMIT. Refused by 1 to 11. */
void rodcrank_plan(const uint8_t *file, size_t file_len, uint32_t limit, rodcrank_answer *answer);

/* Is there, for every set of at most t people, a plan using none of them? YES; NO, and the first set without a plan is shown; or
 * LIMIT. Refused by 1 to 12. */
void rodcrank_static(const uint8_t *file, size_t file_len, uint32_t t, uint32_t limit, rodcrank_answer *answer);

/* Does the desk win where the absent may become more before each step, never above t over the whole job? YES; NO, and the
 * first-round set is shown; or LIMIT. Refused by 1 to 12. */
void rodcrank_decremental(const uint8_t *file, size_t file_len, uint32_t t, uint32_t limit, rodcrank_answer *answer);

/* Does the desk win where at most once, before one of the steps, at most t people go and stay away? YES; NO, and the first-round
 * strike is shown, nobody where that round is passed; or LIMIT. Refused by 1 to 12. */
void rodcrank_one_shot(const uint8_t *file, size_t file_len, uint32_t t, uint32_t limit, rodcrank_answer *answer);

/* Does the desk win where any set of at most t people is away in each round? YES; NO, and the good people at the start are shown,
 * at most t of them; or LIMIT. Refused by 1 to 12. */
void rodcrank_dynamic(const uint8_t *file, size_t file_len, uint32_t t, uint32_t limit, rodcrank_answer *answer);

/* Whom to put into which step next, with some people absent in this round: NAMED with step and person; NOBODY; or LIMIT. Refused by
 * 1 to 14. To play on, append the step and the person to the position. */
void rodcrank_advice(const uint8_t *file, size_t file_len, const uint8_t *position, size_t position_len, uint32_t t, uint64_t absent_low,
                     uint64_t absent_high, uint32_t limit, rodcrank_answer *answer);

/* Whom to keep away before the next step: NAMED with people; NOBODY; or LIMIT. Refused by 1 to 13. */
void rodcrank_away(const uint8_t *file, size_t file_len, const uint8_t *position, size_t position_len, uint32_t t, uint32_t limit,
                   rodcrank_answer *answer);

/* The text that the program `verdicts` writes for this input (t, 2 bytes; limit, 4 bytes; a file). Returns how many bytes the text has,
 * at most RODCRANK_TEXT. Where text_len is less, nothing is written; else the text is, and no byte behind it. */
size_t rodcrank_verdicts(const uint8_t *input, size_t input_len, uint8_t *text, size_t text_len);

#ifdef __cplusplus
}
#endif

#endif
