/* The texts on which the interface is tested, and where the tests are counted. */

#ifndef TEXTS_H
#define TEXTS_H

#include <stdint.h>
#include <stdio.h>
#include <stdlib.h>
#include <string.h>

#include "yilgorza.h"

/* A text, and the number and the line with which each job over one text answers it,
   invert as reduce. One that is accepted also has the number of gates of its reduced
   list, of which the inverse has as many; and a circuit its place in the order of
   compare, the same for two that are one circuit, its number of lines, and its number
   of gates as read. */
struct text {
    const char *name;
    uint8_t bytes[YILGORZA_TEXT_BYTES + 1];
    size_t length;
    uint64_t mapped[2], reduced[2];
    int place, lines;
    size_t gates, read;
};

enum { TEXTS = 42 };
static struct text texts[TEXTS];

static void add(struct text *t, const char *words) {
    size_t length = strlen(words);
    if (t->length + length > sizeof t->bytes) {
        puts("a text is too long");
        exit(1);
    }
    memcpy(t->bytes + t->length, words, length);
    t->length += length;
}

static struct text *text(int i, const char *name, int mapped, int mapped_line,
                         int reduced, int reduced_line) {
    struct text *t = &texts[i];
    t->name = name;
    t->mapped[0] = mapped;
    t->mapped[1] = mapped_line;
    t->reduced[0] = reduced;
    t->reduced[1] = reduced_line;
    return t;
}

static struct text *cascade(int i, const char *name, size_t gates) {
    struct text *t = text(i, name, 0, 0, 3, 2);
    t->gates = gates;
    return t;
}

static struct text *circuit(int i, const char *name, int place, size_t gates) {
    struct text *t = text(i, name, 3, 2, 0, 0);
    t->place = place;
    t->gates = gates;
    return t;
}

/* The slips, each with the number and the line of its own refusal; and a circuit with
   the one that the longest of them leads to. */
enum { EMPTY, ONE_MERGE, PASS_MERGE, PLACE_0, PASSES, NO_END, TOO_MANY_STEPS, OVERLONG,
       MERGES, MERGES_AND_ONE, SLIPS };
static struct text slips[SLIPS], merging, merged;

static struct text *slip(int i, const char *name, int number, int line) {
    slips[i].name = name;
    slips[i].reduced[0] = number;
    slips[i].reduced[1] = line;
    return &slips[i];
}

static void add_times(struct text *t, const char *words, int times) {
    for (int i = 0; i < times; i++)
        add(t, words);
}

static void make_slips(void) {
    slip(EMPTY, "an empty slip", 0, 0);
    add(slip(ONE_MERGE, "one merge", 0, 0), "(merge 1)\n");
    add(slip(PASS_MERGE, "a pass and a merge", 0, 0), "(pass 1)\n(merge 2)\n");
    add(slip(PLACE_0, "a pass at place 0", 0, 0), "(pass 0)\n");
    add_times(slip(PASSES, "4,096 passes", 0, 0), "(pass 1)\n", 4096);
    add(slip(NO_END, "a slip without its last line end", 3, 2),
        "(pass 1)\n(pass 1)");
    add_times(slip(TOO_MANY_STEPS, "4,097 steps", 9, 4097), "(pass 1)\n", 4097);
    add_times(slip(OVERLONG, "a slip of 60,001 bytes", 1, 0), "(", 60001);
    add_times(slip(MERGES, "4,095 merges", 0, 0), "(merge 1)\n", 4095);
    add_times(slip(MERGES_AND_ONE, "4,096 merges", 0, 0), "(merge 1)\n", 4096);
    /* The sums are 1, 2, 3, 1, 2, 3 and so on: nothing vanishes before the end. */
    add(&merging, "(lines 32)\n(v 30 31)\n");
    add_times(&merging, "(v 30 31)\n(v 30 31)\n(cn 30 31)\n", 1365);
    add(&merged, "(lines 32)\n(v 30 31)\n");
}

/* The longest work of each job, every refusal of a text, circuits to compare,
   document 01's cascades with their quotes, and kept lines. */
static void make_texts(void) {
    static const char wide[] = "(mct (0 1 2 3 4 5 6 7 8 9 10 11 12 13 14) 15)\n";
    struct text *t;
    int i;

    /* So many gates are quoted by tests/peer. */
    t = cascade(0, "eleven gates of 15 controls", 2750);
    add(t, "(lines 17)\n");
    for (i = 0; i < 11; i++)
        add(t, wide);
    t = text(1, "twelve gates of 15 controls", 9, 13, 3, 2);
    add(t, "(lines 17)\n");
    for (i = 0; i < 12; i++)
        add(t, wide);
    t = text(2, "256 gates of four controls, 32 lines", 9, 172, 3, 2);
    add(t, "(lines 32)\n");
    for (i = 0; i < 256; i++)
        add(t, "(mct (27 28 29 30) 31)\n");
    /* No two neighbours pass or merge, so nothing gets shorter. */
    t = circuit(3, "4,096 gates that stay", 11, 4096);
    add(t, "(lines 32)\n");
    for (i = 0; i < 4096; i++)
        add(t, i % 2 ? "(vp 31 30)\n" : "(vp 30 31)\n");
    /* Each of the last gates passes all others, and four of a kind vanish. Of the
       others none passes so far that it meets its like. The list begins with
       cn 30 31, which comes before vp 30 31. */
    t = circuit(4, "4,096 gates, half of which travel", 9, 2048);
    add(t, "(lines 32)\n");
    for (i = 0; i < 512; i++)
        add(t, "(cn 30 31)\n(cn 31 30)\n(v 30 5)\n(v 6 30)\n");
    for (i = 0; i < 2048; i++)
        add(t, i % 2 ? "(v 6 5)\n" : "(v 7 5)\n");
    t = text(5, "4,097 gates", 3, 2, 9, 4098);
    add(t, "(lines 32)\n");
    for (i = 0; i < 4097; i++)
        add(t, "(vp 30 31)\n");
    t = text(6, "60,001 bytes", 1, 0, 1, 0);
    for (i = 0; i < 60001; i++)
        add(t, "(");
    text(7, "an empty text", 3, 1, 3, 1);
    add(text(8, "33 lines", 4, 1, 4, 1), "(lines 33)\n");
    add(text(9, "a control that is the target", 5, 2, 3, 2),
        "(lines 2)\n(mct (1) 1)\n");
    add(text(10, "controls that fall", 6, 2, 3, 2), "(lines 3)\n(mct (1 0) 2)\n");
    add(text(11, "no spare line", 8, 2, 3, 2), "(lines 4)\n(mct (0 1 2) 3)\n");
    add(text(12, "a gate that is its own control", 3, 2, 5, 2),
        "(lines 2)\n(cn 1 1)\n");
    add(text(13, "a gate on no line of the circuit", 3, 2, 4, 3),
        "(lines 2)\n(cn 0 1)\n(not 2)\n");
    t = circuit(14, "no gates on one line", 1, 0);
    t->mapped[0] = t->mapped[1] = 0;
    add(t, "(lines 1)\n");
    t = circuit(15, "no gates on three lines", 2, 0);
    t->mapped[0] = t->mapped[1] = 0;
    add(t, "(lines 3)\n");
    /* Each list goes on where the one before ends, the first and the third time
       with the gate of the records that fill a list. */
    add(circuit(16, "not 0", 3, 1), "(lines 3)\n(not 0)\n");
    add(circuit(17, "not 0, cn 0 1", 4, 2), "(lines 3)\n(not 0)\n(cn 0 1)\n");
    add(circuit(18, "not 0, cn 0 1, not 0", 5, 3),
        "(lines 3)\n(not 0)\n(cn 0 1)\n(not 0)\n");
    add(circuit(19, "cn 1 2", 6, 1), "(lines 3)\n(cn 1 2)\n");
    add(circuit(20, "cn 1 2, drawn with three gates", 6, 1),
        "(lines 3)\n(cn 0 2)\n(cn 1 2)\n(cn 0 2)\n");
    add(circuit(21, "cn 1 2 on four lines", 7, 1), "(lines 4)\n(cn 1 2)\n");
    add(cascade(22, "a Toffoli gate", 5), "(lines 3)\n(mct (0 1) 2)\n");
    add(cascade(23, "a Toffoli gate twice", 9),
        "(lines 3)\n(mct (0 1) 2)\n(mct (0 1) 2)\n");
    add(cascade(24, "a gate of three controls", 14), "(lines 5)\n(mct (0 1 2) 3)\n");
    /* Negated controls. A NOT stands before and after the gate for each, and counts;
       nothing merges with them in one gate. */
    add(cascade(25, "a negated control", 3), "(lines 2)\n(mct (-0) 1)\n");
    add(cascade(26, "a Toffoli gate, both controls negated", 9),
        "(lines 3)\n(mct (-0 -1) 2)\n");
    /* 4,092 gates and four NOTs, just as many as may be. So many of them are quoted
       by tests/peer. */
    t = cascade(27, "eleven gates of 15 controls, two negated", 2754);
    add(t, "(lines 17)\n(mct (-0 1 2 3 4 5 6 7 8 9 10 11 12 13 -14) 15)\n");
    for (i = 1; i < 11; i++)
        add(t, wide);
    t = text(28, "eleven gates of 15 controls, three negated", 9, 12, 3, 2);
    add(t, "(lines 17)\n(mct (-0 1 2 3 4 5 6 -7 8 9 10 11 12 13 -14) 15)\n");
    for (i = 1; i < 11; i++)
        add(t, wide);
    add(text(29, "a sign at the target", 3, 2, 3, 2), "(lines 2)\n(mct (0) -1)\n");
    add(text(30, "a sign in a circuit", 3, 2, 3, 3),
        "(lines 2)\n(cn 0 1)\n(cn -0 1)\n");
    /* Too wide, and too wide without a spare line, which is tried first. */
    add(text(31, "16 controls on 18 lines", 7, 2, 3, 2),
        "(lines 18)\n(mct (0 1 2 3 4 5 6 7 8 9 10 11 12 13 14 15) 16)\n");
    add(text(32, "16 controls on 17 lines", 8, 2, 3, 2),
        "(lines 17)\n(mct (0 1 2 3 4 5 6 7 8 9 10 11 12 13 14 15) 16)\n");
    add(text(33, "31 controls on 32 lines", 8, 2, 3, 2),
        "(lines 32)\n(mct (0 1 2 3 4 5 6 7 8 9 10 11 12 13 14 15 16 17 18 19 20 21 22 23 "
        "24 25 26 27 28 29 30) 31)\n");
    /* The front half of 3, and its inverse, which begins with target 30. Joined they
       are as long as may be, and one after the other vanishes. */
    t = circuit(34, "2,048 gates that stay", 10, 2048);
    add(t, "(lines 32)\n");
    for (i = 0; i < 2048; i++)
        add(t, i % 2 ? "(vp 31 30)\n" : "(vp 30 31)\n");
    t = circuit(35, "2,048 gates that undo these", 8, 2048);
    add(t, "(lines 32)\n");
    for (i = 0; i < 2048; i++)
        add(t, i % 2 ? "(v 30 31)\n" : "(v 31 30)\n");
    /* Kept lines. One that the gate does not name is no spare line: the gate has line 5
       left, and on five lines none. */
    add(cascade(36, "a gate of three controls, and a kept line", 14),
        "(lines 6)\n(keep 4)\n(mct (0 1 2) 3)\n");
    add(text(37, "the only unnamed line kept", 8, 3, 3, 2),
        "(lines 5)\n(keep 4)\n(mct (0 1 2) 3)\n");
    add(text(38, "kept lines that fall", 6, 2, 3, 2), "(lines 3)\n(keep 1 0)\n");
    add(text(39, "a kept line that the circuit has not", 4, 2, 3, 2),
        "(lines 3)\n(keep 3)\n");
    add(text(40, "a keep line in a circuit", 3, 3, 3, 2),
        "(lines 2)\n(keep 0)\n(cn 0 1)\n");
    /* Only line 16 is left to borrow, as it is in 0. */
    t = cascade(41, "eleven gates of 15 controls, 16 lines kept", 2750);
    add(t, "(lines 32)\n(keep 0 17 18 19 20 21 22 23 24 25 26 27 28 29 30 31)\n");
    for (i = 0; i < 11; i++)
        add(t, wide);

    make_slips();
    for (t = texts; t < texts + TEXTS; t++)
        if (t->reduced[0] == 0) {
            t->lines = atoi((const char *)t->bytes + 7);
            for (size_t byte = 0; byte < t->length; byte++)
                t->read += t->bytes[byte] == '\n';
            t->read--;
        }
}

/* The jobs over one text with one signature, and map for the quote only, which is
   lent no byte of the answer area. */
enum job { MAP, REDUCE, INVERT, QUOTE, JOBS };

static const char *const job_names[] = {"map", "reduce", "invert", "quote only"};

/* Whether the job takes circuits. */
static int of_circuits(enum job job) { return job == REDUCE || job == INVERT; }

static void do_job(enum job job, const uint8_t *text, size_t text_len,
                   uint16_t *list, size_t list_len, uint8_t *answer,
                   size_t answer_len, uint64_t *outcome) {
    if (job == REDUCE)
        yilgorza_reduce(text, text_len, list, list_len, answer, answer_len, outcome);
    else if (job == INVERT)
        yilgorza_invert(text, text_len, list, list_len, answer, answer_len, outcome);
    else
        yilgorza_map(text, text_len, list, list_len, answer,
                     job == QUOTE ? 0 : answer_len, outcome);
}

/* The number, the line and the gates that the text is to get from the job, with a list
   and an area that are long enough. */
static void expected(enum job job, const struct text *t, uint64_t *numbers) {
    const uint64_t *given = of_circuits(job) ? t->reduced : t->mapped;
    numbers[YILGORZA_NUMBER] = given[0];
    numbers[YILGORZA_LINE] = given[1];
    numbers[YILGORZA_GATES] = given[0] ? 0 : t->gates;
}

/* The order of two circuits by their places. */
static int order(const struct text *first, const struct text *second) {
    if (first->place == second->place)
        return YILGORZA_EQUAL;
    return first->place < second->place ? YILGORZA_LESS : YILGORZA_GREATER;
}

/* The four numbers that two texts are to get from compare, with lists that are long
   enough: the refusal that reduce gives to the first, else the one that it gives to
   the second, else their order. */
static void compared(const struct text *first, const struct text *second,
                     uint64_t *numbers) {
    int text = first->reduced[0] ? 1 : second->reduced[0] ? 2 : 0;
    const struct text *refused = text == 1 ? first : second;
    numbers[YILGORZA_SEVERAL_NUMBER] = text ? refused->reduced[0] : 0;
    numbers[YILGORZA_SEVERAL_LINE] = text ? refused->reduced[1] : 0;
    numbers[YILGORZA_SEVERAL_TEXT] = text;
    numbers[YILGORZA_SEVERAL_COUNT] = text ? 0 : order(first, second);
}

/* The gates of the join of two circuits that can be joined. On 32 lines these are 34
   and 35: a circuit and its inverse vanish, one twice stays. */
static size_t joined_gates(const struct text *first, const struct text *second) {
    /* Of 15 to 20, all on three lines, by hand: no gates; not 0; not 0, cn 0 1; not 0,
       cn 0 1, not 0; and cn 1 2, drawn twice. */
    static const size_t small[6][6] = {{0, 1, 2, 3, 1, 1}, {1, 0, 1, 2, 2, 2},
                                       {2, 3, 4, 5, 3, 3}, {3, 2, 1, 0, 4, 4},
                                       {1, 2, 3, 4, 0, 0}, {1, 2, 3, 4, 0, 0}};
    if (first->lines == 3)
        return small[first - texts - 15][second - texts - 15];
    if (first->lines == 32)
        return first == second ? 4096 : 0;
    return 0;
}

/* The number, the line and the text that two texts are to get from join, with a list
   and an area that are long enough, and the gates of the join: a refusal as from
   compare, else 11, else 9 at the first gate over. */
static size_t joined(const struct text *first, const struct text *second,
                     uint64_t *numbers) {
    compared(first, second, numbers);
    if (numbers[YILGORZA_SEVERAL_NUMBER])
        return 0;
    if (first->lines != second->lines) {
        numbers[YILGORZA_SEVERAL_NUMBER] = 11;
        return 0;
    }
    if (first->read + second->read > 4096) {
        numbers[YILGORZA_SEVERAL_NUMBER] = 9;
        numbers[YILGORZA_SEVERAL_LINE] = 4096 - first->read + 2;
        numbers[YILGORZA_SEVERAL_TEXT] = 2;
        return 0;
    }
    return joined_gates(first, second);
}

/* The text at which a slip in form ends that begins at this one, or NULL if its first
   step is not allowed. Of the texts only 20 has neighbours at its front that pass: by
   a pass and a merge it becomes 19. None has two there that merge. */
static const struct text *end_of(const struct text *first, const struct text *slip) {
    if (slip == &slips[EMPTY])
        return first;
    if (first == &texts[20] && slip == &slips[PASS_MERGE])
        return &texts[19];
    if (first == &texts[20] && slip == &slips[PASSES])
        return first;
    return NULL;
}

/* The four numbers that three texts are to get from slip, with lists that are long
   enough: a refusal in the order of the texts, else 11, else 12, else 13. */
static void slipped(const struct text *first, const struct text *slip,
                    const struct text *second, uint64_t *numbers) {
    const struct text *all[] = {first, slip, second}, *end = end_of(first, slip);
    memset(numbers, 0, 4 * sizeof *numbers);
    for (int i = 0; i < 3; i++)
        if (all[i]->reduced[0]) {
            numbers[YILGORZA_SEVERAL_NUMBER] = all[i]->reduced[0];
            numbers[YILGORZA_SEVERAL_LINE] = all[i]->reduced[1];
            numbers[YILGORZA_SEVERAL_TEXT] = i + 1;
            return;
        }
    if (first->lines != second->lines) {
        numbers[YILGORZA_SEVERAL_NUMBER] = 11;
    } else if (!end) {
        numbers[YILGORZA_SEVERAL_NUMBER] = 12;
        numbers[YILGORZA_SEVERAL_LINE] = 1;
        numbers[YILGORZA_SEVERAL_TEXT] = 2;
    } else if (end != second) {
        numbers[YILGORZA_SEVERAL_NUMBER] = 13;
    }
}

static int passed, failed;

static void verdict(int good, const char *name) {
    printf("%s%s\n", good ? "ok      " : "FAILED  ", name);
    if (good)
        passed++;
    else
        failed++;
}

/* Prints the counts, and is the exit status. */
static int counts(void) {
    printf("%d passed, %d failed\n", passed, failed);
    return failed != 0 || passed == 0;
}

#endif
