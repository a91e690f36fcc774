/* What is written and read of the areas that are lent: each area ends at a page that
   may not be touched, and the texts may not be written. */

#include <sys/mman.h>
#include <unistd.h>

#include "texts.h"

/* The records lent: just enough, and more. */
enum { ENOUGH = YILGORZA_LIST_RECORDS, RECORDS = 5000 };

static const uint16_t paint = 0xfffe;

static uint16_t *list, *second_list;
static uint8_t *answer;
static uint64_t *outcome, *several;

/* An area of this length that ends at a page that may not be touched. */
static void *area(size_t length) {
    size_t page = sysconf(_SC_PAGESIZE), whole = (length + page - 1) / page * page;
    uint8_t *start = mmap(NULL, whole + page, PROT_READ | PROT_WRITE,
                          MAP_PRIVATE | MAP_ANONYMOUS, -1, 0);
    if (start == MAP_FAILED || mprotect(start + whole, page, PROT_NONE)) {
        puts("there is no memory for an area");
        exit(1);
    }
    return start + whole - length;
}

/* A copy of the text that may not be written, up to its page. */
static const uint8_t *fixed(const struct text *t) {
    size_t page = sysconf(_SC_PAGESIZE);
    uint8_t *copy = area(t->length);
    memcpy(copy, t->bytes, t->length);
    uint8_t *start = (uint8_t *)((uintptr_t)copy / page * page);
    if (t->length && mprotect(start, copy + t->length - start, PROT_READ)) {
        puts("a text cannot be fixed");
        exit(1);
    }
    return copy;
}

/* The last records of a list, which are lent; none has no address. */
static uint16_t *last(uint16_t *whole, size_t records) {
    return records ? whole + RECORDS - records : NULL;
}

static void paint_list(uint16_t *whole) {
    for (size_t i = 0; i < RECORDS; i++)
        whole[i] = paint;
}

/* The part of the answer area that is lent. */
struct room {
    uint8_t *start;
    size_t length;
};

/* Its last bytes; none has no address. */
static struct room last_bytes(size_t length) {
    struct room r = {length ? answer + YILGORZA_ANSWER_BYTES - length : NULL, length};
    return r;
}

/* Whether the records lent hold so many gates and then `not 0`, or, with the refusals
   1 and 2, are as painted; and all others are as painted. */
static int holds(const uint16_t *whole, size_t records, uint64_t number, size_t gates) {
    for (size_t i = 0; i < RECORDS; i++) {
        int within = i >= RECORDS - records && number != 1 && number != 2;
        uint16_t record = whole[i];
        if (!within && record != paint)
            return 0;
        if (within && i - (RECORDS - records) < gates && record >= 4224)
            return 0;
        if (within && i - (RECORDS - records) >= gates && record != YILGORZA_NOT_0)
            return 0;
    }
    return 1;
}

/* Whether these bytes and no others of the answer area are written, and have so many
   lines. */
static int shows(struct room written, size_t lines) {
    for (uint8_t *byte = answer; byte < answer + YILGORZA_ANSWER_BYTES; byte++) {
        int within = written.length && byte >= written.start &&
                     byte < written.start + written.length;
        if (within == (*byte == 0xfe))
            return 0;
        lines -= *byte == '\n';
    }
    return lines == 0;
}

/* A text, the records lent to it, and the gates that it is to have in them. */
struct side {
    const uint8_t *bytes;
    size_t length, records, gates;
};

/* Paints what is lent, does the job, and looks at all of it: whether the outcome is
   this one, the list holds what it is to hold, and the answer area has the text, or
   nothing where none is written. */
static int lent(enum job job, struct side s, struct room room, uint64_t number,
                uint64_t line) {
    size_t gates = number ? 0 : s.gates;
    int writes = number == 0 && job != QUOTE && room.length != 0;
    struct room written = {room.start, 0};
    paint_list(list);
    memset(answer, 0xfe, YILGORZA_ANSWER_BYTES);
    memset(outcome, 0xfe, 4 * sizeof *outcome);
    do_job(job, s.bytes, s.length, last(list, s.records), s.records, room.start,
           room.length, outcome);
    written.length = outcome[YILGORZA_BYTES];
    return outcome[YILGORZA_NUMBER] == number && outcome[YILGORZA_LINE] == line &&
           outcome[YILGORZA_GATES] == gates &&
           written.length <= (writes ? room.length : 0) &&
           shows(written, writes ? gates + 1 : 0) &&
           holds(list, s.records, number, gates);
}

/* The same of compare: whether the outcome is this one, and both lists hold what they
   are to hold. */
static int lent_two(struct side first, struct side second, uint64_t number,
                    uint64_t line, uint64_t text, uint64_t count) {
    paint_list(list);
    paint_list(second_list);
    memset(several, 0xfe, 4 * sizeof *several);
    yilgorza_compare(first.bytes, first.length, last(list, first.records),
                     first.records, second.bytes, second.length,
                     last(second_list, second.records), second.records, several);
    return several[YILGORZA_SEVERAL_NUMBER] == number &&
           several[YILGORZA_SEVERAL_LINE] == line &&
           several[YILGORZA_SEVERAL_TEXT] == text &&
           several[YILGORZA_SEVERAL_COUNT] == count &&
           holds(list, first.records, number, number ? 0 : first.gates) &&
           holds(second_list, second.records, number, number ? 0 : second.gates);
}

/* The same of join: whether the outcome is this one, the list holds so many gates, and
   the answer area has the text. */
static int lent_join(struct side first, struct side second, struct room room,
                     uint64_t number, uint64_t line, uint64_t text, size_t gates) {
    struct room written = {room.start, 0};
    paint_list(list);
    memset(answer, 0xfe, YILGORZA_ANSWER_BYTES);
    memset(several, 0xfe, 4 * sizeof *several);
    yilgorza_join(first.bytes, first.length, last(list, first.records), first.records,
                  second.bytes, second.length, room.start, room.length, several);
    written.length = several[YILGORZA_SEVERAL_COUNT];
    return several[YILGORZA_SEVERAL_NUMBER] == number &&
           several[YILGORZA_SEVERAL_LINE] == line &&
           several[YILGORZA_SEVERAL_TEXT] == text &&
           written.length <= (number ? 0 : room.length) &&
           shows(written, number ? 0 : gates + 1) &&
           holds(list, first.records, number, gates);
}

/* The same of slip, with a slip of its own area: whether the outcome is this one, and
   both lists hold so many gates. */
static int lent_three(struct side first, struct side slip, struct side second,
                      const uint64_t *numbers, size_t gates) {
    uint64_t number = numbers[YILGORZA_SEVERAL_NUMBER];
    paint_list(list);
    paint_list(second_list);
    memset(several, 0xfe, 4 * sizeof *several);
    yilgorza_slip(first.bytes, first.length, last(list, first.records), first.records,
                  slip.bytes, slip.length, second.bytes, second.length,
                  last(second_list, second.records), second.records, several);
    return memcmp(several, numbers, 4 * sizeof *several) == 0 &&
           holds(list, first.records, number, number ? 0 : gates) &&
           holds(second_list, second.records, number, number ? 0 : gates) &&
           (number || memcmp(last(list, first.records),
                             last(second_list, second.records),
                             gates * sizeof *list) == 0);
}

/* A refusal of slip, or with 0 its success without a gate. */
static int refused_three(struct side first, struct side slip, struct side second,
                         uint64_t number, uint64_t line, uint64_t text) {
    uint64_t numbers[] = {number, line, text, 0};
    return lent_three(first, slip, second, numbers, 0);
}

static void test_jobs(const uint8_t *const *bytes) {
    static const uint8_t one[] = "(lines 1)\n";
    const struct side good = {one, 10, ENOUGH, 0}, empty = {NULL, 0, ENOUGH, 0},
                      bare = {one, 10, 0, 0}, none = {NULL, 0, 0, 0},
                      shorter = {one, 10, ENOUGH - 1, 0};
    const struct room whole = last_bytes(YILGORZA_ANSWER_BYTES);
    char name[120];
    int job, i;

    for (job = 0; job < JOBS; job++)
        for (i = 0; i < TEXTS; i++) {
            struct side s = {bytes[i], texts[i].length, ENOUGH, texts[i].gates};
            struct side longer = {s.bytes, s.length, RECORDS, s.gates};
            uint64_t e[3];
            expected(job, &texts[i], e);
            snprintf(name, sizeof name, "%s of %s, with 4,096 and 5,000 records",
                     job_names[job], texts[i].name);
            verdict(lent(job, s, whole, e[0], e[1]) &&
                        lent(job, longer, whole, e[0], e[1]),
                    name);
        }

    for (job = 0; job < JOBS; job++) {
        int short_answer = job == QUOTE ? 0 : 10;
        snprintf(name, sizeof name, "%s with pointers that are null and lengths of 0",
                 job_names[job]);
        verdict(lent(job, empty, whole, 3, 1) && lent(job, bare, whole, 2, 0) &&
                    lent(job, good, last_bytes(0), of_circuits(job) ? 10 : 0, 0) &&
                    lent(job, none, last_bytes(0), 2, 0),
                name);
        snprintf(name, sizeof name,
                 "%s with an area of one byte, too short by one, and just long enough",
                 job_names[job]);
        verdict(lent(job, good, last_bytes(1), short_answer, 0) &&
                    lent(job, good, last_bytes(9), short_answer, 0) &&
                    lent(job, good, last_bytes(10), 0, 0) &&
                    lent(job, shorter, last_bytes(10), 2, 0),
                name);
    }
}

/* With an answer area of length 0, at no address, at the start, in the middle and at
   the end of what is painted: map gives the gates and leaves the list that it gives and
   leaves with an area that is long enough, and reduce and invert refuse what they
   would accept. */
static void test_empty_areas(const uint8_t *const *bytes) {
    static uint16_t left[RECORDS];
    const struct room whole = last_bytes(YILGORZA_ANSWER_BYTES);
    const struct room rooms[] = {{NULL, 0},
                                 {answer, 0},
                                 {answer + YILGORZA_ANSWER_BYTES / 2, 0},
                                 {answer + YILGORZA_ANSWER_BYTES, 0}};
    char name[120];

    for (int i = 0; i < TEXTS; i++) {
        struct side s = {bytes[i], texts[i].length, RECORDS, texts[i].gates};
        uint64_t mapped[3], reduced[3], refused;
        int good;
        expected(MAP, &texts[i], mapped);
        expected(REDUCE, &texts[i], reduced);
        refused = reduced[0] ? reduced[0] : 10;
        good = lent(MAP, s, whole, mapped[0], mapped[1]);
        memcpy(left, list, sizeof left);
        for (int r = 0; r < 4; r++)
            good &= lent(MAP, s, rooms[r], mapped[0], mapped[1]) &&
                    memcmp(left, list, sizeof left) == 0 &&
                    lent(REDUCE, s, rooms[r], refused, reduced[1]) &&
                    lent(INVERT, s, rooms[r], refused, reduced[1]);
        snprintf(name, sizeof name, "%s, with an answer area of length 0",
                 texts[i].name);
        verdict(good, name);
    }
}

static void test_compare(const uint8_t *const *bytes) {
    static const uint8_t long_text[YILGORZA_TEXT_BYTES + 1] = "(";
    const struct side none = {NULL, 0, 0, 0}, empty = {NULL, 0, ENOUGH, 0},
                      overlong = {long_text, sizeof long_text, ENOUGH, 0};
    struct side good = {bytes[19], texts[19].length, ENOUGH, 1}, bare = good,
                shorter = good, tiny = empty, longer = good;
    char name[120];
    int i, j;

    bare.records = 0;
    shorter.records = ENOUGH - 1;
    tiny.records = 10;
    longer.records = RECORDS;
    for (i = 0; i < TEXTS; i++) {
        int all = 1;
        for (j = 0; j < TEXTS; j++) {
            struct side a = {bytes[i], texts[i].length, ENOUGH, texts[i].gates};
            struct side b = {bytes[j], texts[j].length, RECORDS, texts[j].gates};
            uint64_t e[4];
            compared(&texts[i], &texts[j], e);
            all &= lent_two(a, b, e[0], e[1], e[2], e[3]);
            a.records = RECORDS;
            b.records = ENOUGH;
            all &= lent_two(a, b, e[0], e[1], e[2], e[3]);
        }
        snprintf(name, sizeof name, "compare of %s with every text", texts[i].name);
        verdict(all, name);
    }

    verdict(lent_two(empty, good, 3, 1, 1, 0) && lent_two(good, empty, 3, 1, 2, 0) &&
                lent_two(bare, good, 2, 0, 1, 0) && lent_two(good, bare, 2, 0, 2, 0) &&
                lent_two(none, none, 2, 0, 1, 0) && lent_two(empty, none, 3, 1, 1, 0),
            "compare with pointers that are null and lengths of 0");
    verdict(lent_two(shorter, good, 2, 0, 1, 0) && lent_two(good, shorter, 2, 0, 2, 0) &&
                lent_two(shorter, shorter, 2, 0, 1, 0) &&
                lent_two(shorter, overlong, 2, 0, 1, 0) &&
                lent_two(longer, shorter, 2, 0, 2, 0),
            "compare with a list too short by one, both lists left as they are");
    verdict(lent_two(overlong, bare, 1, 0, 1, 0) &&
                lent_two(longer, overlong, 1, 0, 2, 0) &&
                lent_two(good, overlong, 1, 0, 2, 0),
            "compare with a text too long, both lists left as they are");
    verdict(lent_two(empty, tiny, 3, 1, 1, 0) && lent_two(empty, bare, 3, 1, 1, 0) &&
                lent_two(empty, shorter, 3, 1, 1, 0) &&
                lent_two(longer, empty, 3, 1, 2, 0),
            "compare with a line refused, `not 0` in all of both lists, short ones too");
    verdict(lent_two(good, good, 0, 0, 0, YILGORZA_EQUAL) &&
                list[RECORDS - ENOUGH] == 274 && second_list[RECORDS - ENOUGH] == 274,
            "compare of one text with itself, from one area");
}

static void test_join(const uint8_t *const *bytes) {
    static const uint8_t long_text[YILGORZA_TEXT_BYTES + 1] = "(";
    static const uint8_t one[] = "(lines 1)\n", two[] = "(lines 2)\n";
    const struct side none = {NULL, 0, 0, 0}, empty = {NULL, 0, ENOUGH, 0},
                      overlong = {long_text, sizeof long_text, ENOUGH, 0},
                      good = {one, 10, ENOUGH, 0}, bare = {one, 10, 0, 0},
                      shorter = {one, 10, ENOUGH - 1, 0},
                      longer = {one, 10, RECORDS, 0}, tiny = {NULL, 0, 10, 0},
                      other = {two, 10, ENOUGH, 0};
    const struct room whole = last_bytes(YILGORZA_ANSWER_BYTES);
    char name[120];
    int i, j;

    for (i = 0; i < TEXTS; i++) {
        int all = 1;
        for (j = 0; j < TEXTS; j++) {
            struct side a = {bytes[i], texts[i].length, ENOUGH, 0};
            struct side b = {bytes[j], texts[j].length, 0, 0};
            uint64_t e[4];
            size_t gates = joined(&texts[i], &texts[j], e);
            all &= lent_join(a, b, whole, e[0], e[1], e[2], gates);
            a.records = RECORDS;
            all &= lent_join(a, b, whole, e[0], e[1], e[2], gates);
            /* With no room, at any address, 10 comes after every other number. */
            all &= lent_join(a, b, last_bytes(0), e[0] ? e[0] : 10, e[1], e[2], 0);
            struct room middle = {answer + YILGORZA_ANSWER_BYTES / 2, 0};
            all &= lent_join(a, b, middle, e[0] ? e[0] : 10, e[1], e[2], 0);
        }
        snprintf(name, sizeof name, "join of %s with every text", texts[i].name);
        verdict(all, name);
    }

    verdict(lent_join(empty, good, whole, 3, 1, 1, 0) &&
                lent_join(good, empty, whole, 3, 1, 2, 0) &&
                lent_join(bare, good, whole, 2, 0, 1, 0) &&
                lent_join(none, none, last_bytes(0), 2, 0, 1, 0) &&
                lent_join(empty, none, last_bytes(0), 3, 1, 1, 0),
            "join with pointers that are null and lengths of 0");
    verdict(lent_join(good, good, last_bytes(1), 10, 0, 0, 0) &&
                lent_join(good, good, last_bytes(9), 10, 0, 0, 0) &&
                lent_join(good, good, last_bytes(10), 0, 0, 0, 0) &&
                lent_join(longer, good, last_bytes(10), 0, 0, 0, 0),
            "join with an area of one byte, too short by one, and just long enough");
    verdict(lent_join(shorter, good, whole, 2, 0, 1, 0) &&
                lent_join(tiny, good, whole, 2, 0, 1, 0) &&
                lent_join(shorter, overlong, whole, 2, 0, 1, 0) &&
                lent_join(overlong, good, whole, 1, 0, 1, 0) &&
                lent_join(good, overlong, whole, 1, 0, 2, 0) &&
                lent_join(longer, overlong, whole, 1, 0, 2, 0),
            "join with a list or a text of a wrong length, the list left as it is");
    verdict(lent_join(empty, overlong, whole, 3, 1, 1, 0) &&
                lent_join(longer, empty, whole, 3, 1, 2, 0),
            "join with a line refused, `not 0` in all of the list");
    verdict(lent_join(good, other, whole, 11, 0, 0, 0) &&
                lent_join(other, longer, whole, 11, 0, 0, 0) &&
                lent_join(longer, other, last_bytes(0), 11, 0, 0, 0),
            "join on different numbers of lines, `not 0` in all of the list");
    struct side it = {bytes[34], texts[34].length, ENOUGH, 0}, same = it;
    verdict(lent_join(it, same, whole, 0, 0, 0, 4096),
            "join of one text with itself, from one area");
}

/* Each slip between every two texts. */
static void test_slips(const uint8_t *const *bytes) {
    char name[120];

    for (int k = 0; k < SLIPS; k++) {
        struct side steps = {fixed(&slips[k]), slips[k].length, 0, 0};
        int all = 1;
        for (int i = 0; i < TEXTS * TEXTS; i++) {
            const struct text *first = &texts[i / TEXTS], *second = &texts[i % TEXTS];
            struct side a = {bytes[i / TEXTS], first->length, ENOUGH, 0};
            struct side b = {bytes[i % TEXTS], second->length, RECORDS, 0};
            uint64_t e[4];
            slipped(first, &slips[k], second, e);
            all &= lent_three(a, steps, b, e, second->read);
            a.records = RECORDS;
            b.records = ENOUGH;
            all &= lent_three(a, steps, b, e, second->read);
        }
        snprintf(name, sizeof name, "slip of every two texts with %s", slips[k].name);
        verdict(all, name);
    }
}

static void test_slip(const uint8_t *const *bytes) {
    static const uint8_t long_text[YILGORZA_TEXT_BYTES + 1] = "(";
    static const uint8_t one[] = "(lines 1)\n", two[] = "(lines 2)\n";
    static const uint64_t accepted[4], refused[4] = {12, 4096, 2, 0};
    const struct side none = {NULL, 0, 0, 0}, empty = {NULL, 0, ENOUGH, 0},
                      overlong = {long_text, sizeof long_text, ENOUGH, 0},
                      good = {one, 10, ENOUGH, 0}, bare = {one, 10, 0, 0},
                      shorter = {one, 10, ENOUGH - 1, 0},
                      longer = {one, 10, RECORDS, 0}, tiny = {NULL, 0, 10, 0},
                      other = {two, 10, ENOUGH, 0}, steps = {slips[1].bytes, 10, 0, 0};

    verdict(refused_three(good, none, good, 0, 0, 0) &&
                refused_three(longer, none, good, 0, 0, 0) &&
                refused_three(empty, none, good, 3, 1, 1) &&
                refused_three(good, none, empty, 3, 1, 3) &&
                refused_three(bare, none, good, 2, 0, 1) &&
                refused_three(good, none, bare, 2, 0, 3) &&
                refused_three(none, none, none, 2, 0, 1) &&
                refused_three(empty, none, none, 3, 1, 1) &&
                refused_three(good, none, none, 2, 0, 3),
            "slip with pointers that are null and lengths of 0");
    verdict(refused_three(shorter, none, good, 2, 0, 1) &&
                refused_three(good, none, shorter, 2, 0, 3) &&
                refused_three(shorter, overlong, shorter, 2, 0, 1) &&
                refused_three(longer, steps, shorter, 2, 0, 3) &&
                refused_three(good, none, tiny, 2, 0, 3) &&
                refused_three(good, steps, tiny, 2, 0, 3),
            "slip with a list too short by one, both lists left as they are");
    verdict(refused_three(overlong, overlong, bare, 1, 0, 1) &&
                refused_three(longer, overlong, bare, 1, 0, 2) &&
                refused_three(good, overlong, empty, 1, 0, 2) &&
                refused_three(longer, steps, overlong, 1, 0, 3),
            "slip with a text too long, both lists left as they are");
    verdict(refused_three(empty, overlong, tiny, 3, 1, 1) &&
                refused_three(empty, none, shorter, 3, 1, 1) &&
                refused_three(good, good, tiny, 3, 1, 2) &&
                refused_three(longer, good, bare, 3, 1, 2) &&
                refused_three(longer, steps, empty, 3, 1, 3),
            "slip with a line refused, `not 0` in all of both lists, short ones too");
    verdict(refused_three(good, none, other, 11, 0, 0) &&
                refused_three(other, steps, longer, 11, 0, 0) &&
                refused_three(good, steps, longer, 12, 1, 2),
            "slip with other lines or no neighbours, `not 0` in all of both lists");
    struct side all = {fixed(&merging), merging.length, ENOUGH, 0};
    struct side end = {fixed(&merged), merged.length, RECORDS, 0};
    struct side merges = {fixed(&slips[MERGES]), slips[MERGES].length, 0, 0};
    struct side more = {fixed(&slips[MERGES_AND_ONE]), slips[MERGES_AND_ONE].length,
                        0, 0};
    verdict(lent_three(all, merges, end, accepted, 1) &&
                list[RECORDS - ENOUGH] == 31 * 132 + 31 * 4 + 1,
            "slip of 4,095 merges of 4,096 gates into one");
    verdict(lent_three(all, more, end, refused, 0), "slip with one merge more");
    struct side it = {bytes[3], texts[3].length, ENOUGH, 0}, same = it;
    verdict(lent_three(it, none, same, accepted, 4096),
            "slip from a text to itself, from one area");
}

int main(void) {
    const uint8_t *bytes[TEXTS];
    list = area(RECORDS * sizeof *list);
    second_list = area(RECORDS * sizeof *second_list);
    answer = area(YILGORZA_ANSWER_BYTES);
    outcome = area(4 * sizeof *outcome);
    several = area(4 * sizeof *several);
    make_texts();
    for (int i = 0; i < TEXTS; i++)
        bytes[i] = fixed(&texts[i]);
    test_jobs(bytes);
    test_empty_areas(bytes);
    test_compare(bytes);
    test_join(bytes);
    test_slips(bytes);
    test_slip(bytes);
    return counts();
}
