/* How much stack a call takes: each function runs, on each text, each pair of texts or
   each pair with some slips, on a stack of its own between two pages that may not be
   touched. The stack is painted before the call; the lowest byte that has changed after
   it is as far as the call came. It is painted twice, in two colours, since a call may
   write one of them. The stack has twice the 96 KiB that the header states, so that a
   call that takes more of it is measured too. */

#include <sys/mman.h>
#include <ucontext.h>
#include <unistd.h>

#include "texts.h"

enum { STATED = 96 * 1024, STACK = 2 * STATED };

/* The functions: the jobs over one text, and these. */
enum { COMPARE = JOBS, JOIN, SLIP, GATE, FUNCTIONS };

static const char *const names[] = {"map",     "reduce", "invert", "quote only",
                                    "compare", "join",   "slip",   "gate"};

static uint16_t list[YILGORZA_LIST_RECORDS], second_list[YILGORZA_LIST_RECORDS];
static uint8_t answer[YILGORZA_ANSWER_BYTES];
static uint64_t outcome[4];

static uint8_t *stack;
static ucontext_t here, there;

/* What runs there. */
static int function;
static const struct text *read_text, *second_text, *read_slip;
static size_t list_len, second_list_len, answer_len;

static void call(void) {
    uint8_t gate[3];
    if (function == GATE)
        yilgorza_gate(4223, gate);
    else if (function == COMPARE)
        yilgorza_compare(read_text->bytes, read_text->length, list, list_len,
                         second_text->bytes, second_text->length, second_list,
                         second_list_len, outcome);
    else if (function == JOIN)
        yilgorza_join(read_text->bytes, read_text->length, list, list_len,
                      second_text->bytes, second_text->length, answer, answer_len,
                      outcome);
    else if (function == SLIP)
        yilgorza_slip(read_text->bytes, read_text->length, list, list_len,
                      read_slip->bytes, read_slip->length, second_text->bytes,
                      second_text->length, second_list, second_list_len, outcome);
    else
        do_job(function, read_text->bytes, read_text->length, list, list_len, answer,
               answer_len, outcome);
}

static void call_there(void) {
    getcontext(&there);
    there.uc_stack.ss_sp = stack;
    there.uc_stack.ss_size = STACK;
    there.uc_link = &here;
    makecontext(&there, call, 0);
    swapcontext(&here, &there);
}

/* The bytes of stack of one call. */
static size_t used(void) {
    static const uint8_t colours[] = {0xaa, 0x55};
    size_t most = 0;
    for (int c = 0; c < 2; c++) {
        size_t untouched = 0;
        memset(stack, colours[c], STACK);
        call_there();
        while (untouched < STACK && stack[untouched] == colours[c])
            untouched++;
        if (STACK - untouched > most)
            most = STACK - untouched;
    }
    return most;
}

static size_t larger(size_t a, size_t b) { return a > b ? a : b; }

/* The most of a job over all texts, and the refusals that are about what is lent. */
static size_t most_of_job(void) {
    size_t most = 0;
    for (int i = 0; i < TEXTS; i++) {
        uint64_t numbers[3];
        read_text = &texts[i];
        list_len = YILGORZA_LIST_RECORDS;
        answer_len = YILGORZA_ANSWER_BYTES;
        most = larger(most, used());
        expected(function, read_text, numbers);
        if (memcmp(outcome, numbers, sizeof numbers)) {
            verdict(0, read_text->name);
            return 0;
        }
        list_len--;
        most = larger(most, used());
        list_len++;
        answer_len = 0;
        most = larger(most, used());
    }
    return most;
}

/* The most of compare over all pairs of texts, with lists that are long enough, and
   with either of them too short. */
static size_t most_of_compare(void) {
    size_t most = 0;
    for (int i = 0; i < TEXTS * TEXTS; i++) {
        uint64_t numbers[4];
        read_text = &texts[i / TEXTS];
        second_text = &texts[i % TEXTS];
        list_len = second_list_len = YILGORZA_LIST_RECORDS;
        most = larger(most, used());
        compared(read_text, second_text, numbers);
        if (memcmp(outcome, numbers, sizeof outcome)) {
            verdict(0, read_text->name);
            return 0;
        }
        list_len--;
        most = larger(most, used());
        list_len++;
        second_list_len--;
        most = larger(most, used());
    }
    return most;
}

/* The most of join over all pairs of texts, with a list and an area that are long
   enough, and with either of them too short. */
static size_t most_of_join(void) {
    size_t most = 0;
    for (int i = 0; i < TEXTS * TEXTS; i++) {
        uint64_t numbers[4];
        read_text = &texts[i / TEXTS];
        second_text = &texts[i % TEXTS];
        list_len = YILGORZA_LIST_RECORDS;
        answer_len = YILGORZA_ANSWER_BYTES;
        most = larger(most, used());
        joined(read_text, second_text, numbers);
        if (memcmp(outcome, numbers, 3 * sizeof *numbers)) {
            verdict(0, read_text->name);
            return 0;
        }
        list_len--;
        most = larger(most, used());
        list_len++;
        answer_len = 0;
        most = larger(most, used());
    }
    return most;
}

/* The most of slip with a circuit, a slip and a second one, with lists that are long
   enough, and with either of them too short; 0 if the outcome is another one. */
static size_t most_of_three(const struct text *first, const struct text *slip,
                            const struct text *second, const uint64_t *numbers) {
    size_t most;
    read_text = first;
    read_slip = slip;
    second_text = second;
    list_len = second_list_len = YILGORZA_LIST_RECORDS;
    most = used();
    if (memcmp(outcome, numbers, sizeof outcome)) {
        verdict(0, slip->name);
        return 0;
    }
    list_len--;
    most = larger(most, used());
    list_len++;
    second_list_len--;
    return larger(most, used());
}

/* The most of slip: over all pairs of texts with an empty slip and with a refused step,
   over all texts and slips, and with the longest slips there are. */
static size_t most_of_slip(void) {
    static const uint64_t accepted[4], refused[4] = {12, 4096, 2, 0};
    size_t most = 0, one;
    for (int i = 0; i < TEXTS * (2 * TEXTS + SLIPS); i++) {
        uint64_t numbers[4];
        int k = i / TEXTS;
        const struct text *first = &texts[i % TEXTS],
                          *slip = &slips[k < TEXTS       ? EMPTY
                                         : k < 2 * TEXTS ? PLACE_0
                                                         : k - 2 * TEXTS],
                          *second = k < 2 * TEXTS ? &texts[k % TEXTS] : first;
        slipped(first, slip, second, numbers);
        one = most_of_three(first, slip, second, numbers);
        if (!one)
            return 0;
        most = larger(most, one);
    }
    most = larger(most, most_of_three(&merging, &slips[MERGES], &merged, accepted));
    one = most_of_three(&merging, &slips[MERGES_AND_ONE], &merged, refused);
    return larger(most, one);
}

int main(void) {
    size_t page = sysconf(_SC_PAGESIZE), most;
    char name[80];
    uint8_t *area = mmap(NULL, STACK + 2 * page, PROT_NONE,
                         MAP_PRIVATE | MAP_ANONYMOUS, -1, 0);
    if (area == MAP_FAILED || mprotect(area + page, STACK, PROT_READ | PROT_WRITE)) {
        puts("there is no memory for a stack");
        return 1;
    }
    stack = area + page;
    make_texts();
    for (function = 0; function < FUNCTIONS; function++) {
        most = function == GATE      ? used()
               : function == COMPARE ? most_of_compare()
               : function == JOIN    ? most_of_join()
               : function == SLIP    ? most_of_slip()
                                     : most_of_job();
        snprintf(name, sizeof name, "%s takes at most %zu bytes of stack",
                 names[function], most);
        verdict(0 < most && most < STATED, name);
    }
    return counts();
}
