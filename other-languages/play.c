/* Plays a whole job. usage: play CASE T [ABSENT ..]
 *
 * CASE is a case file, T the absence number; each ABSENT says who is away in one round, as 0,2 or as - for nobody, and rounds
 * that are not given have nobody away. If the dynamic verdict is yes, the desk is played: each round's advice is followed to the
 * end. If it is no, the away side is played: each round shows whom to keep away, and the first person left who may do the step
 * does it, until nobody can.
 */
#include <inttypes.h>
#include <stdio.h>
#include <stdlib.h>
#include "rodcrank.h"

static const uint32_t LIMIT = 10000000;

static uint8_t file[RODCRANK_FILE + 1];
static size_t length;

/* the steps done, two bytes each */
static uint8_t position[2 * RODCRANK_STEPS];

static void place(size_t entry, uint64_t step, uint64_t person) {
    position[2 * entry] = (uint8_t)step;
    position[2 * entry + 1] = (uint8_t)person;
}

static int refused(const rodcrank_answer *a) {
    if (a->refused)
        printf("refused %" PRIu64 " at %" PRIu64 "\n", a->refused, a->place);
    else if (a->said == RODCRANK_LIMIT)
        printf("limit after %" PRIu64 " trials\n", a->trials);
    return a->refused || a->said == RODCRANK_LIMIT;
}

static int has(rodcrank_people set, unsigned v) {
    return v < 64 ? set.low >> v & 1 : v < 128 ? set.high >> (v - 64) & 1 : 0;
}

static rodcrank_people with(rodcrank_people set, unsigned long v) {
    if (v < 64)
        set.low |= (uint64_t)1 << v;
    else if (v < 128)
        set.high |= (uint64_t)1 << (v - 64);
    return set;
}

static void print_set(rodcrank_people set) {
    if (!set.low && !set.high)
        printf(" nobody");
    for (unsigned v = 0; v < 128; v++)
        if (has(set, v))
            printf(" %u", v);
}

/* "0,2" as a set; anything but digits and commas is nobody, and somebody for whom the words have no room is unknown, as person 127 is */
static rodcrank_people set_of(const char *list) {
    rodcrank_people set = {0, 0};
    while (*list >= '0' && *list <= '9') {
        char *end;
        unsigned long v = strtoul(list, &end, 10);
        set = with(set, v < 128 ? v : 127);
        list = *end == ',' ? end + 1 : end;
    }
    return set;
}

/* the desk's side: advice, round by round */
static int play_desk(uint32_t t, size_t steps, char **rounds, int given) {
    for (size_t done = 0; done < steps; done++) {
        rodcrank_people absent = set_of((int)done < given ? rounds[done] : "-");
        rodcrank_answer a;
        rodcrank_advice(file, length, position, 2 * done, t, absent.low, absent.high, LIMIT, &a);
        printf("round %zu, away:", done + 1);
        print_set(absent);
        printf("; ");
        if (refused(&a))
            return 1;
        if (a.said == RODCRANK_NOBODY) {
            printf("nobody will do\n");
            return 1;
        }
        printf("step %" PRIu64 ", person %" PRIu64 " (%" PRIu64 " trials)\n", a.step, a.person, a.trials);
        place(done, a.step, a.person);
    }
    printf("done, %zu steps\n", steps);
    return 0;
}

/* somebody who is not kept away and leaves a valid position, or -1: the planner tells, since a position with them is not refused. (Of the
 * last step it tells nothing, but everybody who would complete a plan is kept away.) */
static int somebody(uint32_t t, size_t done, size_t steps, rodcrank_people away) {
    for (unsigned v = 0; v < RODCRANK_PEOPLE && done + 1 < steps; v++) {
        rodcrank_answer next;
        place(done, done, v);
        rodcrank_away(file, length, position, 2 * done + 2, t, LIMIT, &next);
        if (!has(away, v) && !next.refused)
            return (int)v;
    }
    return -1;
}

/* the away side: whom to keep away, round by round, against a desk that takes the first person it may */
static int play_away(uint32_t t, size_t steps) {
    for (size_t done = 0; done < steps; done++) {
        rodcrank_answer a;
        rodcrank_away(file, length, position, 2 * done, t, LIMIT, &a);
        printf("round %zu, keep away:", done + 1);
        if (refused(&a))
            return 1;
        if (a.said == RODCRANK_NOBODY) { /* never after a no */
            printf(" nobody to keep away\n");
            return 1;
        }
        print_set(a.people);
        int v = somebody(t, done, steps, a.people);
        if (v < 0) {
            printf("; nobody is left who will do\n");
            return 0;
        }
        printf("; step %zu, person %d\n", done, v);
        place(done, done, (uint64_t)v);
    }
    return 1;
}

int main(int argc, char **argv) {
    if (argc < 3) {
        fprintf(stderr, "usage: play CASE T [ABSENT ..]\n");
        return 2;
    }
    FILE *in = fopen(argv[1], "rb");
    if (!in) {
        perror(argv[1]);
        return 2;
    }
    length = fread(file, 1, sizeof file, in); /* one byte more than any case has, so that a longer file is refused */
    fclose(in);
    char *end;
    uint32_t t = (uint32_t)strtoul(argv[2], &end, 10);
    if (end == argv[2] || *end) {
        fprintf(stderr, "play: T is a number, and %s is none\n", argv[2]);
        return 2;
    }

    rodcrank_answer a;
    rodcrank_dynamic(file, length, t, LIMIT, &a);
    if (refused(&a))
        return 1;
    size_t steps = file[4]; /* a good file: at most 8 steps */
    if (a.said == RODCRANK_YES) {
        printf("dynamic yes, %" PRIu64 " trials\n", a.trials);
        return play_desk(t, steps, argv + 3, argc - 3);
    }
    printf("dynamic no, good at the start:");
    print_set(a.people);
    printf(", %" PRIu64 " trials\n", a.trials);
    return play_away(t, steps);
}
