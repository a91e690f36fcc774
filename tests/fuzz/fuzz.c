/* The harness of the fuzzer (libFuzzer with AddressSanitizer) on the static
   library: each input is given to the jobs, over one text, two and three, on lent
   areas of sizes that the input chooses, and what holds of every answer is
   checked. Map is also called with an empty answer area, and has to count the same
   gates and give the same list. What reduce gives for either of two texts says all
   that compare has to give for both; and what it gives for both in one, all that join
   has to give. The inverse of the inverse has to be what reduce gives, and a text
   joined with its inverse has no gates. A cascade with minus signs is also given without
   them, and with a gate without controls for each NOT that they stand for. What rules 4
   to 8 say of each line of a cascade is worked out here too. A cascade with a keep line is
   also given without it; what map gives for it touches no kept line that no mct names, and
   as a circuit it is malformed. A slip is read and its steps are taken here too, which with
   what reduce says of the two circuits is all that slip has to give; where all steps are
   allowed it is also given with the circuit that they end at, and is accepted.

   Memory. The archive is plain machine code, in which AddressSanitizer checks
   nothing but the memory functions of the C library. So the areas stand
   directly before or directly after a page without access: one byte read or
   written beyond that end of an area stops the run. A few watched bytes stand
   at the other end. An empty answer area always stands before its page: its
   pointer is that of the page. Compiled with REPLAY, the same harness has a main
   function that runs the files named on the command line, with malloc'ed areas of
   the exact sizes, for valgrind, which checks machine code instruction by
   instruction.

   Guidance. No coverage is compiled into the archive. What guides the fuzzer is
   handed to it as libFuzzer's extra counters:
   - the basic blocks of the archive's machine code. A breakpoint (int3) stands
     at the start of each block; the handler of its trap counts the block and
     puts the original byte back. So each block is told once, with the first
     input that reaches it, and the code runs at full speed afterwards. The
     addresses of the blocks come from a disassembly (see blocks.awk), in the
     file that the environment variable FUZZ_BLOCKS names.
   - the outcomes: number and line, and gates or count (its number of binary
     digits), of each kind of call, for each text of compare, join and slip.
   The harness itself is compiled without coverage.

   An input is four bytes of choices, a text and perhaps a second text and a slip. The
   first two `%`, which no text in form has, stand between them; what is not there is
   empty. The jobs over one text get the first.
   byte 0: the length of the list (low four bits), which is also that of join, and of
   the second text's list (high four bits); byte 1 (bits 0 and 1) and 2: the length of the
   answer area; byte 3: at which end of the areas the page stands (bit 0), and whether the
   last line of the text (bits 1 to 3) and of the second text (bits 4 to 6) is repeated up
   to a limit; and byte 1 whether that of the slip is (bits 4 to 6).
   With `0000` it is lists of 4,096 records, an ample answer area and the texts as
   they stand. */

#define _GNU_SOURCE
#include "../../include/yilgorza.h"

#include <signal.h>
#include <stdio.h>
#include <stdlib.h>
#include <string.h>
#include <sys/mman.h>
#include <ucontext.h>
#include <unistd.h>

enum { LONGEST_TEXT = 60000, SHORTEST_LIST = 4096, AMPLE = 50000, BESIDE = 64 };
/* The kinds of call: the jobs, and map with an empty answer area apart. Each refusal of
   a second text is counted under the number that follows that of its job, of a third
   under the next. */
enum call { MAP, REDUCE, MAP_EMPTY_AREA, COMPARE, INVERT = COMPARE + 2, JOIN, SLIP = JOIN + 2, CALLS = SLIP + 3 };
static const char *const call_names[] = {
    [MAP] = "map", [REDUCE] = "reduce", [MAP_EMPTY_AREA] = "map with an empty area",
    [COMPARE] = "compare", [INVERT] = "invert", [JOIN] = "join", [SLIP] = "slip",
};

static void fail(enum call call, const char *what)
{
    fprintf(stderr, "fuzz: FAILED: %s: %s\n", call_names[call], what);
    abort();
}

/* How many cascades with a minus sign were accepted. */
static unsigned long signed_cascades;
/* How many cascades were refused at a gate of 16 or more controls, by 8 and by 7. */
static unsigned long wide_no_spare, wide_with_spare;
/* How many cascades with a keep line were accepted, how many were refused by 8 that have
   an unnamed line, and how many keep lines were refused by 4 and by 6. */
static unsigned long kept_cascades, kept_no_spare, keeps_refused;
/* How many circuits with gates were inverted, how many pairs with gates in both were
   joined, and how many joins were refused by 11 and by a 9 of their own. */
static unsigned long inverted, joined, joins_of_other_lines, joins_over;
/* How many slips with steps were accepted, and how many were refused by 12, by 13, by 11 and
   by a 3 or 9 of their own. */
static unsigned long slips_accepted, slips_not_allowed, slips_elsewhere, slips_of_other_lines, slips_not_read;

/* ---- Guidance ---- */

enum { MOST_BLOCKS = 1 << 16, OUTCOMES = 1 << 13 };

#ifndef REPLAY
__attribute__((section("__libfuzzer_extra_counters")))
#endif
static volatile uint8_t counters[MOST_BLOCKS + OUTCOMES];

/* The refusals of a job over several texts are counted for each text. */
static void count_outcome(enum call call, uint64_t number, uint64_t line, uint64_t text, uint64_t count)
{
    unsigned short_line = line < 24 ? (unsigned)line : 24;
    unsigned digits = count ? 64 - (unsigned)__builtin_clzll(count) : 0;
    unsigned feature = number ? 64 + (unsigned)number * 25 + short_line : digits;
    _Static_assert(CALLS * 512 <= OUTCOMES, "room for all outcomes");
    counters[MOST_BLOCKS + (call + (text > 1 ? text - 1 : 0)) * 512 + feature % 512] = 1;
}

#ifndef REPLAY

/* The machine code of the archive, a section of its own. */
extern uint8_t __start_subject_text[], __stop_subject_text[];

static uint32_t *block_at;  /* for each byte of the code, its block from 1 on */
static uint8_t *code_before; /* the code without breakpoints */
static unsigned blocks, blocks_reached;

static void block_reached(int signal_number, siginfo_t *info, void *context)
{
    (void)signal_number;
    (void)info;
    greg_t *place = &((ucontext_t *)context)->uc_mcontext.gregs[REG_RIP];
    uint8_t *code = (uint8_t *)(*place - 1);
    if (code < __start_subject_text || code >= __stop_subject_text)
        abort();
    size_t offset = (size_t)(code - __start_subject_text);
    if (!block_at[offset] || code_before[offset] == 0xcc)
        abort();
    *code = code_before[offset];
    *place -= 1;
    counters[block_at[offset] % MOST_BLOCKS] = 1;
    blocks_reached++;
}

static void tell_blocks(void)
{
    fprintf(stderr, "fuzz: %u of %u basic blocks of the archive reached\n", blocks_reached, blocks);
    fprintf(stderr, "fuzz: %lu cascades with a minus sign accepted\n", signed_cascades);
    fprintf(stderr, "fuzz: %lu cascades refused by 8 at 16 or more controls, %lu by 7\n", wide_no_spare,
            wide_with_spare);
    fprintf(stderr, "fuzz: %lu cascades with a keep line accepted, %lu refused by 8 for it, %lu by 4 or 6 at it\n",
            kept_cascades, kept_no_spare, keeps_refused);
    fprintf(stderr, "fuzz: %lu circuits inverted, %lu pairs joined, %lu refused by 11, %lu by 9 together\n", inverted,
            joined, joins_of_other_lines, joins_over);
    fprintf(stderr, "fuzz: %lu slips with steps accepted, %lu refused by 12, %lu by 13, %lu by 11, %lu by their lines\n",
            slips_accepted, slips_not_allowed, slips_elsewhere, slips_of_other_lines, slips_not_read);
}

int LLVMFuzzerInitialize(int *argc, char ***argv)
{
    (void)argc;
    (void)argv;
    const char *name = getenv("FUZZ_BLOCKS");
    FILE *file = name ? fopen(name, "r") : NULL;
    if (!file) {
        fprintf(stderr, "fuzz: FUZZ_BLOCKS has to name the file of the blocks\n");
        exit(1);
    }
    size_t size = (size_t)(__stop_subject_text - __start_subject_text);
    block_at = calloc(size, sizeof *block_at);
    code_before = malloc(size);
    memcpy(code_before, __start_subject_text, size);
    uintptr_t page = (uintptr_t)sysconf(_SC_PAGESIZE);
    uintptr_t first = (uintptr_t)__start_subject_text & ~(page - 1);
    uintptr_t end = ((uintptr_t)__stop_subject_text + page - 1) & ~(page - 1);
    if (mprotect((void *)first, end - first, PROT_READ | PROT_WRITE | PROT_EXEC)) {
        perror("fuzz: mprotect");
        exit(1);
    }
    unsigned long long address;
    while (fscanf(file, "%llx", &address) == 1) {
        uint8_t *code = (uint8_t *)(uintptr_t)address;
        if (code < __start_subject_text || code >= __stop_subject_text || *code == 0xcc)
            continue;
        block_at[code - __start_subject_text] = ++blocks;
        *code = 0xcc;
    }
    fclose(file);
    if (!blocks) {
        fprintf(stderr, "fuzz: no blocks\n");
        exit(1);
    }
    struct sigaction action = { .sa_sigaction = block_reached, .sa_flags = SA_SIGINFO | SA_NODEFER };
    sigaction(SIGTRAP, &action, NULL);
    atexit(tell_blocks);
    return 0;
}

#endif

/* ---- Lent areas ---- */

/* Whether all bytes, or all records, are of one value: the first is, and each
   is as the one before it. */
static int all_bytes(const uint8_t *bytes, size_t length, uint8_t value)
{
    return length == 0 || (bytes[0] == value && !memcmp(bytes, bytes + 1, length - 1));
}

static int all_records(const uint16_t *records, size_t length, uint16_t value)
{
    return length == 0 || (records[0] == value && !memcmp(records, records + 1, (length - 1) * sizeof *records));
}

struct area {
    uint8_t *bytes;
    size_t length;
    uint8_t *room; /* what was mapped or malloc'ed */
    size_t room_length;
    int at_front; /* the page without access stands before the area */
};

#ifdef REPLAY

static void lend(struct area *area, size_t length, int at_front, uint8_t junk)
{
    area->room = area->bytes = malloc(length);
    area->room_length = area->length = length;
    area->at_front = at_front;
    memset(area->bytes, junk, length);
}

static void take_back(struct area *area)
{
    free(area->room);
}

static int beside_unchanged(const struct area *area, uint8_t junk)
{
    (void)area;
    (void)junk;
    return 1;
}

#else

/* Rooms are mapped once, with a page without access at both ends. */
enum { ROOMS = 5, ROOM = 1 << 17 };
static uint8_t *rooms[ROOMS];
static int rooms_lent;

static void lend(struct area *area, size_t length, int at_front, uint8_t junk)
{
    size_t page = (size_t)sysconf(_SC_PAGESIZE);
    uint8_t **room = &rooms[rooms_lent++];
    if (!*room) {
        uint8_t *mapped = mmap(NULL, ROOM + 2 * page, PROT_NONE, MAP_PRIVATE | MAP_ANONYMOUS, -1, 0);
        if (mapped == MAP_FAILED || mprotect(mapped + page, ROOM, PROT_READ | PROT_WRITE)) {
            perror("fuzz: mmap");
            exit(1);
        }
        *room = mapped + page;
    }
    area->room = *room;
    area->room_length = ROOM;
    area->length = length;
    area->at_front = at_front;
    area->bytes = at_front ? *room : *room + ROOM - length;
    memset(at_front ? area->bytes : area->bytes - BESIDE, junk, length + BESIDE);
}

static void take_back(struct area *area)
{
    (void)area;
    rooms_lent--;
}

static int beside_unchanged(const struct area *area, uint8_t junk)
{
    return all_bytes(area->at_front ? area->bytes + area->length : area->bytes - BESIDE, BESIDE, junk);
}

#endif

/* ---- What holds of every answer ---- */

struct answer {
    uint64_t number, line, gates, bytes;
    uint16_t list[SHORTEST_LIST];
    uint8_t text[AMPLE];
};

static size_t put_number(uint8_t *text, unsigned number)
{
    size_t length = 0;
    if (number >= 10)
        text[length++] = (uint8_t)('0' + number / 10);
    text[length++] = (uint8_t)('0' + number % 10);
    return length;
}

static size_t put_word(uint8_t *text, const char *word)
{
    memcpy(text, word, strlen(word));
    return strlen(word);
}

/* Line 1 of an answer text. */
static size_t put_lines(uint8_t *line, unsigned lines)
{
    size_t end = put_word(line, "(lines ");
    end += put_number(line + end, lines);
    return end + put_word(line + end, ")\n");
}

/* The line of a record, which has to be a gate on so many lines. */
static size_t put_gate(enum call call, uint8_t *line, unsigned lines, uint16_t record)
{
    static const char *const words[] = { "", "(v ", "(cn ", "(vp " };
    unsigned power = record % 4, slot = record / 4 % 33, target = record / 132;
    if (power == 0 || target >= lines || slot > lines || slot == target + 1 || (slot == 0 && power != 2))
        fail(call, "a record is no gate");
    size_t end = put_word(line, slot ? words[power] : "(not ");
    if (slot) {
        end += put_number(line + end, slot - 1);
        line[end++] = ' ';
    }
    end += put_number(line + end, target);
    return end + put_word(line + end, ")\n");
}

/* Checks that as many records as gates are counted are gates, and that the text,
   where one is written, is theirs to its last byte. */
static void check_gates(enum call call, unsigned lines, const uint16_t *list, uint64_t gates, const uint8_t *text,
                        uint64_t bytes)
{
    uint8_t line[32];
    uint64_t place = 0;
    for (uint64_t i = 0; i <= gates; i++) {
        size_t end = i ? put_gate(call, line, lines, list[i - 1]) : put_lines(line, lines);
        if (!bytes)
            continue;
        if (bytes - place < end || memcmp(text + place, line, end))
            fail(call, "the answer text isn't that of the list");
        place += end;
    }
    if (place != bytes)
        fail(call, "more bytes than those of the gates");
}

/* The n of an accepted text. */
static unsigned lines_of(const uint8_t *text)
{
    unsigned lines = 0;
    for (const uint8_t *digit = text + strlen("(lines "); *digit >= '0' && *digit <= '9'; digit++)
        lines = 10 * lines + *digit - '0';
    return lines;
}

/* Checks what holds of the four numbers whatever the texts say. */
static void check_outcome(enum call call, const struct answer *given, size_t text_length, size_t list_length,
                          size_t answer_length)
{
    uint64_t number = given->number;
    int of_circuit = call == REDUCE || call == INVERT;
    if (number > 10 || (call == MAP_EMPTY_AREA && number == 10) || (of_circuit && number >= 6 && number <= 8))
        fail(call, "no such number");
    if ((text_length > LONGEST_TEXT) != (number == 1))
        fail(call, "rule 1");
    if ((text_length <= LONGEST_TEXT && list_length < SHORTEST_LIST) != (number == 2))
        fail(call, "rule 2");
    if ((number >= 3 && number <= 9) != (given->line > 0) || given->line > text_length + 1)
        fail(call, "the line");
    if (number && (given->gates || given->bytes))
        fail(call, "the gates or bytes of a refusal");
    if (given->gates > SHORTEST_LIST)
        fail(call, "the gates are past the list");
    if (given->bytes > answer_length || (number == 0 && (given->bytes == 0) != (call == MAP_EMPTY_AREA)))
        fail(call, "the bytes");
}

/* Runs a job over one text. */
static void run(enum call job, const uint8_t *text, size_t text_length, size_t list_length, size_t answer_length,
                int at_front, uint8_t junk, struct answer *result)
{
    struct area text_area, list_area, answer_area;
    enum call call = job == MAP && !answer_length ? MAP_EMPTY_AREA : job;
    uint64_t outcome[6] = { 99, 99, 99, 99, 99, 99 };
    lend(&text_area, text_length, at_front, junk);
    lend(&list_area, list_length * sizeof(uint16_t), at_front, junk);
    lend(&answer_area, answer_length, at_front && answer_length, junk);
    if (text_length)
        memcpy(text_area.bytes, text, text_length);
    uint16_t *list = (uint16_t *)list_area.bytes;
    uint8_t *answer = answer_area.bytes;
    (job == MAP ? yilgorza_map : job == REDUCE ? yilgorza_reduce : yilgorza_invert)(
        text_area.bytes, text_length, list, list_length, answer, answer_length, outcome + 1);
    if (outcome[0] != 99 || outcome[5] != 99)
        fail(call, "a word beside the outcome was written");
    result->number = outcome[1];
    result->line = outcome[2];
    result->gates = outcome[3];
    result->bytes = outcome[4];
    check_outcome(call, result, text_length, list_length, answer_length);
    uint64_t number = result->number, gates = result->gates, bytes = result->bytes;
    if (number == 0)
        check_gates(call, lines_of(text), list, gates, answer, bytes);
    uint16_t rest = number == 1 || number == 2 ? (uint16_t)(junk << 8 | junk) : YILGORZA_NOT_0;
    if (!all_records(list + gates, list_length - gates, rest))
        fail(call, "the records after the list");
    if (!all_bytes(answer + bytes, answer_length - bytes, junk))
        fail(call, "the bytes after the answer");
    if (text_length && memcmp(text_area.bytes, text, text_length))
        fail(call, "the text was changed");
    if (!beside_unchanged(&text_area, junk) || !beside_unchanged(&list_area, junk)
        || !beside_unchanged(&answer_area, junk))
        fail(call, "bytes beside an area were written");
    memcpy(result->list, list, gates * sizeof(uint16_t));
    memcpy(result->text, answer, bytes);
    take_back(&answer_area);
    take_back(&list_area);
    take_back(&text_area);
    count_outcome(call, number, result->line, 0, gates);
}

static int same_list(const struct answer *a, const struct answer *b)
{
    return a->gates == b->gates && !memcmp(a->list, b->list, a->gates * sizeof(uint16_t));
}

/* ---- Rules 4 to 8 ---- */

/* The length of so many lines of a text. */
static size_t length_of(const uint8_t *text, uint64_t lines)
{
    size_t length = 0;
    for (; lines; length++)
        lines -= text[length] == '\n';
    return length;
}

static int is_digit(uint8_t byte)
{
    return byte >= '0' && byte <= '9';
}

/* All lines of a circuit, a bit for each. */
static uint32_t all_lines(unsigned lines)
{
    return lines < 32 ? (1u << lines) - 1 : ~0u;
}

/* What these rules say of an mct line in form, 8 before 7, or 0; its number of controls,
   and the lines that it names. No number has three digits. */
static uint64_t refused_by(const uint8_t *line, size_t size, unsigned lines, uint32_t kept, unsigned *controls,
                           uint32_t *named)
{
    int is_control[100] = { 0 }, inside = 1, foreign = 0, crossed = 0, unsorted = 0;
    unsigned before = 0, k = 0;
    *named = 0;
    for (size_t i = 0; i < size; i++) {
        inside &= line[i] != ')';
        if (!is_digit(line[i]))
            continue;
        unsigned number = line[i] - '0';
        if (i + 1 < size && is_digit(line[i + 1]))
            number = 10 * number + line[++i] - '0';
        foreign |= number >= lines;
        *named |= number < 32 ? 1u << number : 0;
        if (inside) {
            unsorted |= k && number <= before;
            is_control[number] = 1;
            before = number;
            k++;
        } else {
            crossed |= is_control[number];
        }
    }
    *controls = k;
    int no_spare = !(all_lines(lines) & ~*named & ~kept);
    return foreign ? 4 : crossed ? 5 : unsorted ? 6 : k >= 3 && no_spare ? 8 : k > 15 ? 7 : 0;
}

static int begins_like_a_keep_line(const uint8_t *line, size_t length)
{
    return length >= strlen("(keep") && !memcmp(line, "(keep", strlen("(keep"));
}

/* The numbers of the keep line that was read last. */
static uint8_t numbers[LONGEST_TEXT];

/* Reads the numbers of a keep line in form, with its end, and gives how many there are; 0
   if the line is no such line. */
static size_t read_keep(const uint8_t *line, size_t size)
{
    size_t place = strlen("(keep"), count = 0;
    if (!begins_like_a_keep_line(line, size))
        return 0;
    while (place + 1 < size && line[place] == ' ' && is_digit(line[place + 1])) {
        unsigned number = line[place + 1] - '0';
        place += 2;
        if (number && place < size && is_digit(line[place]))
            number = 10 * number + line[place++] - '0';
        numbers[count++] = (uint8_t)number;
    }
    return size - place == 2 && !memcmp(line + place, ")\n", 2) ? count : 0;
}

/* What rules 4 and 6 say of so many numbers that were read, or 0; and the kept lines. */
static uint64_t keep_refused_by(size_t count, unsigned lines, uint32_t *kept)
{
    int foreign = 0, unsorted = 0;
    for (size_t i = 0; i < count; i++) {
        foreign |= numbers[i] >= lines;
        unsorted |= i && numbers[i] <= numbers[i - 1];
        *kept |= numbers[i] < 32 ? 1u << numbers[i] : 0;
    }
    return foreign ? 4 : unsorted ? 6 : 0;
}

/* What is found of a cascade: its kept lines, and the lines that all its gates name, and
   any. */
struct lines {
    uint32_t kept, named_by_all, named_by_any;
};

/* Checks a line of a cascade, with its end, that is not refused by 3. Gives what rules 4 to
   8 say of it. */
static uint64_t rules_of(const uint8_t *line, size_t size, uint64_t place, unsigned lines, struct lines *found)
{
    unsigned controls;
    uint32_t named;
    size_t count = place == 2 ? read_keep(line, size) : 0;
    if (count) {
        uint64_t due = keep_refused_by(count, lines, &found->kept);
        keeps_refused += due != 0;
        return due;
    }
    if (begins_like_a_keep_line(line, size))
        fail(MAP, "a keep line that is not in form, or not on line 2");
    uint64_t due = refused_by(line, size, lines, found->kept, &controls, &named);
    wide_no_spare += due == 8 && controls > 15;
    wide_with_spare += due == 7;
    kept_no_spare += due == 8 && (all_lines(lines) & ~named);
    found->named_by_all &= named;
    found->named_by_any |= named;
    return due;
}

/* Checks the lines of a cascade up to the one that is refused. They are in form, but for
   that one if it is refused by 3; rule 9 comes last. */
static void check_rules(const uint8_t *text, size_t length, const struct answer *mapped, struct lines *found)
{
    uint64_t number = mapped->number, last = mapped->line, line = 2;
    *found = (struct lines){ 0, ~0u, 0 };
    if (last == 1 && number > 4)
        fail(MAP, "line 1 is refused like a gate");
    if (number == 1 || number == 2 || last == 1)
        return;
    unsigned lines = lines_of(text);
    size_t start = length_of(text, 1), size;
    for (; start < length && (!last || line <= last); start += size, line++) {
        const uint8_t *end = memchr(text + start, '\n', length - start);
        size = end ? (size_t)(end - text) + 1 - start : length - start;
        if (line == last && number == 3) {
            if (line == 2 && read_keep(text + start, size))
                fail(MAP, "a keep line in form is malformed");
            return;
        }
        if (!end)
            fail(MAP, "a line without its end");
        uint64_t due = rules_of(text + start, size, line, lines, found);
        if (due != (line == last && number < 9 ? number : 0))
            fail(MAP, "rules 4 to 8");
    }
    if (last && line <= last)
        fail(MAP, "a refused line that is not there");
}

/* ---- Keep lines ---- */

/* Whether line 2 of a text begins like a keep line. */
static int has_keep(const uint8_t *text, size_t length)
{
    const uint8_t *end = length ? memchr(text, '\n', length) : NULL;
    return end && begins_like_a_keep_line(end + 1, length - (size_t)(end + 1 - text));
}

/* Checks that a text with a keep line is no circuit. */
static void check_no_circuit(enum call job, const struct answer *answer)
{
    int earlier = answer->number == 1 || answer->number == 2 || answer->line == 1;
    if (!earlier && !(answer->number == 3 && answer->line == 2))
        fail(job, "a circuit with a keep line");
}

/* The lines that the gates of a list touch. */
static uint32_t touched_by(const struct answer *answer)
{
    uint32_t touched = 0;
    for (uint64_t i = 0; i < answer->gates; i++) {
        unsigned slot = answer->list[i] / 4 % 33, target = answer->list[i] / 132;
        touched |= 1u << target | (slot ? 1u << (slot - 1) : 0);
    }
    return touched;
}

/* Checks a cascade with a keep line against what map gives for it without that line, both
   with an empty area, unless a second one comes to its place. The keep line is refused by
   3, 4 and 6 alone. It refuses by 8 what has a spare without it, and changes no other
   refusal but for the line. Kept lines that all gates name change nothing. */
static void check_kept(const uint8_t *text, size_t length, size_t list_length, int at_front, uint8_t junk,
                       const struct answer *mapped, const struct lines *found)
{
    static uint8_t other[LONGEST_TEXT];
    static struct answer again;
    uint64_t number = mapped->number, line = mapped->line;
    if (line == 2 && number != 3 && number != 4 && number != 6)
        fail(MAP, "a keep line is refused like a gate");
    if (number && line <= 2)
        return;
    size_t head = length_of(text, 1), rest = length_of(text, 2);
    memcpy(other, text, head);
    memcpy(other + head, text + rest, length - rest);
    size_t other_length = head + length - rest;
    if (has_keep(other, other_length))
        return;
    run(MAP, other, other_length, list_length, 0, at_front, junk, &again);
    if (!number && again.number)
        fail(MAP, "refused for the want of a keep line");
    if (number == 8 && again.number && again.line < line - 1)
        fail(MAP, "an earlier line is refused for the want of a keep line");
    if (number && number != 8 && (again.number != number || again.line != line - 1))
        fail(MAP, "a keep line changes a refusal");
    if (number)
        return;
    kept_cascades++;
    if (touched_by(mapped) & found->kept & ~found->named_by_any)
        fail(MAP, "a kept line that no gate names is touched");
    if (!(found->kept & ~found->named_by_all) && !same_list(&again, mapped))
        fail(MAP, "kept lines that all gates name change the list");
}

/* ---- Minus signs ---- */

/* More than a cascade of 256 gates of 15 controls, each with its NOTs, has. */
enum { WRITTEN_ROOM = 1 << 17, MOST_MCTS = 256 };

static int has_sign(const uint8_t *text, size_t length)
{
    return length && memchr(text, '-', length) != NULL;
}

/* The text without its minus signs. */
static size_t put_without_signs(uint8_t *to, const uint8_t *text, size_t length)
{
    size_t end = 0;
    for (size_t i = 0; i < length; i++)
        if (text[i] != '-')
            to[end++] = text[i];
    return end;
}

/* Whether the minus sign at a place of an accepted line stands where one may:
   within the brackets of the controls, directly before a number without leading
   zero. */
static int is_sign_of_control(const uint8_t *line, size_t place)
{
    static const char front[] = "(mct (";
    const uint8_t *number = line + place + 1;
    return place >= strlen(front) && !memcmp(line, front, strlen(front)) && !memchr(line, ')', place)
        && (line[place - 1] == '(' || line[place - 1] == ' ') && is_digit(number[0])
        && !(number[0] == '0' && is_digit(number[1]));
}

/* A gate without controls for each negated line of one line of a cascade. */
static size_t put_nots(uint8_t *to, const uint8_t *line, size_t length)
{
    size_t end = 0;
    for (size_t i = 0; i < length; i++) {
        if (line[i] != '-')
            continue;
        if (!is_sign_of_control(line, i))
            fail(MAP, "a minus sign that is not directly before a control");
        end += put_word(to + end, "(mct () ");
        for (i++; is_digit(line[i]); i++)
            to[end++] = line[i];
        end += put_word(to + end, ")\n");
    }
    return end;
}

/* Lines of a cascade, of which the first is line 1, with their NOTs written: before
   each gate, which then has no signs, and after it. */
static size_t put_with_nots(uint8_t *to, const uint8_t *text, size_t length)
{
    size_t end = 0, size;
    for (size_t start = 0; start < length; start += size) {
        const uint8_t *line = text + start;
        size = (size_t)((const uint8_t *)memchr(line, '\n', length - start) - line) + 1;
        end += put_nots(to + end, line, size);
        end += put_without_signs(to + end, line, size);
        end += put_nots(to + end, line, size);
    }
    return end;
}

/* Checks a text with a minus sign against what map gives for others, all with an
   empty area. Rules 4 to 8 do not see the sign, and no line before the refused one
   is refused without it. The NOTs written out count like those that signs stand
   for: what is accepted has the same list with them, where that are not too many
   lines, and what rule 9 refuses, up to that line, is refused by it with them. */
static void check_signs(const uint8_t *text, size_t length, size_t list_length, int at_front, uint8_t junk,
                        const struct answer *mapped)
{
    static uint8_t other[WRITTEN_ROOM];
    static struct answer again;
    uint64_t number = mapped->number;
    if (number == 1 || number == 2)
        return;
    size_t other_length = put_without_signs(other, text, length);
    run(MAP, other, other_length, list_length, 0, at_front, junk, &again);
    if (number >= 4 && number <= 8 && (again.number != number || again.line != mapped->line))
        fail(MAP, "rules 4 to 8 see a minus sign");
    if (again.number && (!number || again.line < mapped->line))
        fail(MAP, "a line is refused for the want of a minus sign");
    if (number && number != 9)
        return;
    signed_cascades += !number;
    other_length = put_with_nots(other, text, number ? length_of(text, mapped->line) : length);
    size_t lines = 0;
    for (size_t i = 0; i < other_length; i++)
        lines += other[i] == '\n';
    size_t heads = has_keep(text, length) ? 2 : 1;
    if (other_length > LONGEST_TEXT || (!number && lines > heads + MOST_MCTS))
        return;
    run(MAP, other, other_length, list_length, 0, at_front, junk, &again);
    if (again.number != number)
        fail(MAP, "with the NOTs of its minus signs written it is judged otherwise");
    if (!number && !same_list(&again, mapped))
        fail(MAP, "with the NOTs of its minus signs written it gives another list");
}

/* ---- Two texts ---- */

/* A text of a pair, the length of its list, and what reduce gives for it. */
struct side {
    const uint8_t *text;
    size_t length, list_length;
    struct answer reduced;
};

/* What a job over several texts returns. */
struct verdict {
    uint64_t number, line, text, count;
};

/* Accepted circuits by number of lines, then by their reduced lists, a list that
   ends sooner first. The order of the records is that of the gates. */
static uint64_t order_of(const struct side *first, const struct side *second)
{
    const struct answer *a = &first->reduced, *b = &second->reduced;
    unsigned lines_a = lines_of(first->text), lines_b = lines_of(second->text);
    if (lines_a != lines_b)
        return lines_a < lines_b ? YILGORZA_LESS : YILGORZA_GREATER;
    for (size_t i = 0; i < a->gates && i < b->gates; i++)
        if (a->list[i] != b->list[i])
            return a->list[i] < b->list[i] ? YILGORZA_LESS : YILGORZA_GREATER;
    return a->gates < b->gates ? YILGORZA_LESS : a->gates > b->gates ? YILGORZA_GREATER : YILGORZA_EQUAL;
}

/* The refusal of the first text, else that of the second, else the order. */
static struct verdict due(const struct side *first, const struct side *second)
{
    const struct answer *a = &first->reduced, *b = &second->reduced;
    if (a->number)
        return (struct verdict){ a->number, a->line, 1, 0 };
    if (b->number)
        return (struct verdict){ b->number, b->line, 2, 0 };
    return (struct verdict){ 0, 0, 0, order_of(first, second) };
}

/* Checks the list of one side: unchanged with 1 and 2, its own reduced list on
   success, and in every other record `not 0`. */
static void check_list(const struct side *side, uint64_t number, const struct area *area, uint8_t junk)
{
    const uint16_t *list = (const uint16_t *)area->bytes;
    uint16_t rest = number == 1 || number == 2 ? (uint16_t)(junk << 8 | junk) : YILGORZA_NOT_0;
    size_t gates = number ? 0 : side->reduced.gates;
    if (memcmp(list, side->reduced.list, gates * sizeof *list))
        fail(COMPARE, "a list isn't the reduced list of its text");
    if (!all_records(list + gates, side->list_length - gates, rest))
        fail(COMPARE, "the records after a list");
    if (!beside_unchanged(area, junk))
        fail(COMPARE, "bytes beside a list were written");
}

static void check_text_area(const struct side *side, const struct area *area, uint8_t junk)
{
    if (side->length && memcmp(area->bytes, side->text, side->length))
        fail(COMPARE, "a text was changed");
    if (!beside_unchanged(area, junk))
        fail(COMPARE, "bytes beside a text were written");
}

static struct verdict compare(const struct side *first, const struct side *second, int at_front, uint8_t junk)
{
    struct area texts[2], lists[2];
    const struct side *sides[2] = { first, second };
    /* The list of the second text has junk of its own. */
    uint8_t junks[2] = { junk, (uint8_t)(junk ^ 1) };
    uint64_t outcome[6] = { 99, 99, 99, 99, 99, 99 };
    for (int i = 0; i < 2; i++) {
        lend(&texts[i], sides[i]->length, at_front, junk);
        lend(&lists[i], sides[i]->list_length * sizeof(uint16_t), at_front, junks[i]);
        if (sides[i]->length)
            memcpy(texts[i].bytes, sides[i]->text, sides[i]->length);
    }
    yilgorza_compare(texts[0].bytes, first->length, (uint16_t *)lists[0].bytes, first->list_length,
                     texts[1].bytes, second->length, (uint16_t *)lists[1].bytes, second->list_length, outcome + 1);
    struct verdict got = { outcome[1], outcome[2], outcome[3], outcome[4] }, expected = due(first, second);
    if (outcome[0] != 99 || outcome[5] != 99)
        fail(COMPARE, "a word beside the outcome was written");
    if (got.number > 9 || (got.number >= 6 && got.number <= 8))
        fail(COMPARE, "no such number");
    if (got.text > 2 || (got.number == 0) != (got.text == 0))
        fail(COMPARE, "the text number");
    if (got.count > YILGORZA_GREATER || (got.number && got.count))
        fail(COMPARE, "the count");
    if (memcmp(&got, &expected, sizeof got))
        fail(COMPARE, "reduce says otherwise");
    for (int i = 1; i >= 0; i--) {
        check_list(sides[i], got.number, &lists[i], junks[i]);
        check_text_area(sides[i], &texts[i], junk);
        take_back(&lists[i]);
        take_back(&texts[i]);
    }
    count_outcome(COMPARE, got.number, got.line, got.text, got.count);
    return got;
}

/* ---- Joins ---- */

/* The most bytes that two circuits of together 4,096 gates have in one text. */
enum { LONGEST_JOIN = 11 * (SHORTEST_LIST + 1) };

/* The gates of an accepted circuit text, as they are read. */
static uint64_t gates_of(const uint8_t *text, size_t length)
{
    uint64_t lines = 0;
    for (size_t i = 0; i < length; i++)
        lines += text[i] == '\n';
    return lines - 1;
}

/* The second text without its line 1, after the first. */
static size_t put_in_one(uint8_t *to, const struct side *first, const struct side *second)
{
    size_t line_1 = length_of(second->text, 1);
    memcpy(to, first->text, first->length);
    memcpy(to + first->length, second->text + line_1, second->length - line_1);
    return first->length + second->length - line_1;
}

/* What join has to return with an ample area, and the answer of reduce to both in one
   where it accepts them. The list is judged with the first text. */
static struct verdict join_due(const struct side *first, const struct side *second, struct answer *whole)
{
    static uint8_t text[LONGEST_JOIN];
    static struct answer alone;
    const struct answer *a = &first->reduced, *b = &second->reduced;
    if (a->number)
        return (struct verdict){ a->number, a->line, 1, 0 };
    if (b->number == 2) {
        run(REDUCE, second->text, second->length, SHORTEST_LIST, AMPLE, 0, 0x55, &alone);
        b = &alone;
    }
    if (b->number)
        return (struct verdict){ b->number, b->line, 2, 0 };
    if (lines_of(first->text) != lines_of(second->text))
        return (struct verdict){ 11, 0, 0, 0 };
    uint64_t gates = gates_of(first->text, first->length), others = gates_of(second->text, second->length);
    if (gates + others > SHORTEST_LIST)
        return (struct verdict){ 9, SHORTEST_LIST - gates + 2, 2, 0 };
    run(REDUCE, text, put_in_one(text, first, second), SHORTEST_LIST, AMPLE, 0, 0x55, whole);
    if (whole->number)
        fail(JOIN, "reduce refuses both in one");
    return (struct verdict){ 0, 0, 0, whole->bytes };
}

/* Checks list and answer area: on success those of reduce, else what a refusal leaves. */
static void check_join(const struct verdict *got, const struct answer *whole, const struct area *list_area,
                       size_t list_length, const struct area *answer_area, uint8_t junk)
{
    const uint16_t *list = (const uint16_t *)list_area->bytes;
    uint16_t rest = got->number == 1 || got->number == 2 ? (uint16_t)(junk << 8 | junk) : YILGORZA_NOT_0;
    size_t gates = got->number ? 0 : whole->gates, bytes = got->number ? 0 : whole->bytes;
    if (memcmp(list, whole->list, gates * sizeof *list))
        fail(JOIN, "the list isn't that of reduce on both in one");
    if (!all_records(list + gates, list_length - gates, rest))
        fail(JOIN, "the records after the list");
    if (memcmp(answer_area->bytes, whole->text, bytes))
        fail(JOIN, "the answer isn't that of reduce on both in one");
    if (!all_bytes(answer_area->bytes + bytes, answer_area->length - bytes, junk))
        fail(JOIN, "the bytes after the answer");
    if (!beside_unchanged(list_area, junk) || !beside_unchanged(answer_area, junk))
        fail(JOIN, "bytes beside an area were written");
}

/* One join; where the two sides are one, of one text area. Gives the count. */
static uint64_t join(const struct side *first, const struct side *second, size_t answer_length, int at_front,
                     uint8_t junk)
{
    static struct answer whole;
    struct area texts[2], list_area, answer_area;
    const struct side *sides[2] = { first, second };
    int areas = first == second ? 1 : 2;
    uint64_t outcome[6] = { 99, 99, 99, 99, 99, 99 };
    struct verdict expected = join_due(first, second, &whole);
    if (!expected.number && expected.count > answer_length)
        expected = (struct verdict){ 10, 0, 0, 0 };
    for (int i = 0; i < areas; i++) {
        lend(&texts[i], sides[i]->length, at_front, junk);
        if (sides[i]->length)
            memcpy(texts[i].bytes, sides[i]->text, sides[i]->length);
    }
    lend(&list_area, first->list_length * sizeof(uint16_t), at_front, junk);
    lend(&answer_area, answer_length, at_front && answer_length, junk);
    yilgorza_join(texts[0].bytes, first->length, (uint16_t *)list_area.bytes, first->list_length,
                  texts[areas - 1].bytes, second->length, answer_area.bytes, answer_length, outcome + 1);
    struct verdict got = { outcome[1], outcome[2], outcome[3], outcome[4] };
    if (outcome[0] != 99 || outcome[5] != 99)
        fail(JOIN, "a word beside the outcome was written");
    if (memcmp(&got, &expected, sizeof got))
        fail(JOIN, "reduce says otherwise");
    check_join(&got, &whole, &list_area, first->list_length, &answer_area, junk);
    take_back(&answer_area);
    take_back(&list_area);
    for (int i = areas - 1; i >= 0; i--) {
        if (sides[i]->length && memcmp(texts[i].bytes, sides[i]->text, sides[i]->length))
            fail(JOIN, "a text was changed");
        if (!beside_unchanged(&texts[i], junk))
            fail(JOIN, "bytes beside a text were written");
        take_back(&texts[i]);
    }
    joins_of_other_lines += got.number == 11;
    joins_over += got.number == 9 && got.line <= SHORTEST_LIST + 1;
    joined += !got.number && gates_of(first->text, first->length) && gates_of(second->text, second->length);
    count_outcome(JOIN, got.number, got.line, got.text, got.count);
    return got.number ? 0 : got.count;
}

/* Two texts in both orders, each with itself, and again with an area that fits or is
   one byte short. */
static void joins_of_two_texts(const uint8_t *choices, const struct side *sides, int at_front, uint8_t junk)
{
    size_t answer_length = (choices[1] & 3) == 3 ? choices[2] : AMPLE;
    for (int i = 0; i < 2; i++) {
        uint64_t count = join(&sides[i], &sides[1 - i], answer_length, at_front, junk);
        join(&sides[i], &sides[i], answer_length, at_front, junk);
        if (count && (choices[1] & 3) == 1)
            join(&sides[i], &sides[1 - i], count, at_front, junk);
        if (count && (choices[1] & 3) == 2)
            join(&sides[i], &sides[1 - i], count - 1, at_front, junk);
    }
}

/* A text that reduce accepts and its inverse: inverted again it is what reduce gives,
   and joined, either way round, they have no gates, unless they are too many. */
static void check_inverse(const struct side *side, int at_front, uint8_t junk)
{
    static struct side inverse;
    static struct answer answer, again;
    const struct answer *reduced = &side->reduced;
    run(INVERT, side->text, side->length, side->list_length, AMPLE, at_front, junk, &answer);
    if (answer.number != reduced->number || answer.line != reduced->line || answer.gates != reduced->gates)
        fail(INVERT, "reduce refuses otherwise, or has other gates");
    if (answer.number)
        return;
    inverted += answer.gates > 0;
    run(INVERT, answer.text, answer.bytes, side->list_length, AMPLE, at_front, junk, &again);
    if (again.number || again.bytes != reduced->bytes || !same_list(&again, reduced)
        || memcmp(again.text, reduced->text, reduced->bytes))
        fail(INVERT, "the inverse of the inverse isn't the reduced list");
    inverse = (struct side){ answer.text, answer.bytes, side->list_length, answer };
    const struct side *sides[2] = { side, &inverse };
    for (int i = 0; i < 2; i++) {
        uint64_t count = join(sides[i], sides[1 - i], AMPLE, at_front, junk);
        if (count && count != length_of(side->text, 1))
            fail(JOIN, "a text and its inverse have gates");
    }
}

/* ---- Slips ---- */

enum { MOST_STEPS = 4096 };

struct step {
    int merges;
    unsigned place;
};

/* A circuit as it is read, or after some steps. */
struct gates {
    uint16_t records[SHORTEST_LIST];
    size_t count;
};

/* A slip as it stands, what its own lines are refused with, and else its steps. */
struct slip {
    const uint8_t *text;
    size_t length;
    uint64_t number, line;
    struct step steps[MOST_STEPS];
    size_t count;
};

/* Reads a line of a slip, with its end, and gives its length; 0 if it isn't in form. */
static size_t read_step(const uint8_t *line, size_t size, struct step *step)
{
    static const char *const words[] = { "(pass ", "(merge " };
    for (int merges = 0; merges < 2; merges++) {
        size_t place = strlen(words[merges]), digits = 0;
        if (size < place || memcmp(line, words[merges], place))
            continue;
        *step = (struct step){ merges, 0 };
        for (; place + digits < size && is_digit(line[place + digits]); digits++)
            step->place = digits < 4 ? 10 * step->place + line[place + digits] - '0' : 0;
        if (digits == 0 || digits > 4 || (digits > 1 && line[place] == '0'))
            return 0;
        place += digits;
        return size - place >= 2 && !memcmp(line + place, ")\n", 2) ? place + 2 : 0;
    }
    return 0;
}

static void read_slip(struct slip *slip)
{
    struct step step;
    size_t size;
    slip->number = slip->line = slip->count = 0;
    if (slip->length > LONGEST_TEXT) {
        slip->number = 1;
        return;
    }
    for (size_t start = 0; start < slip->length; start += size) {
        size = read_step(slip->text + start, slip->length - start, &step);
        if (!size || slip->count == MOST_STEPS) {
            slip->number = size ? 9 : 3;
            slip->line = slip->count + 1;
            return;
        }
        slip->steps[slip->count++] = step;
    }
}

/* The number at a place of an accepted text, which moves behind it. */
static unsigned number_at(const uint8_t *text, size_t *place)
{
    unsigned number = 0;
    for (; is_digit(text[*place]); ++*place)
        number = 10 * number + text[*place] - '0';
    return number;
}

/* The gates of an accepted circuit text, as they stand. */
static void read_gates(const uint8_t *text, size_t length, struct gates *gates)
{
    size_t place = length_of(text, 1);
    gates->count = 0;
    while (place < length) {
        const uint8_t *word = text + place + 1;
        unsigned slot = 0, power = 2;
        while (!is_digit(text[place]))
            place++;
        unsigned target = number_at(text, &place);
        if (*word != 'n') {
            slot = target + 1;
            power = *word == 'c' ? 2 : word[1] == 'p' ? 3 : 1;
            place++;
            target = number_at(text, &place);
        }
        gates->records[gates->count++] = (uint16_t)((target * 33 + slot) * 4 + power);
        /* The bracket and byte 10. */
        place += 2;
    }
}

/* The text of so many gates. */
static size_t put_gates(uint8_t *text, unsigned lines, const struct gates *gates)
{
    size_t end = put_lines(text, lines);
    for (size_t i = 0; i < gates->count; i++)
        end += put_gate(SLIP, text + end, lines, gates->records[i]);
    return end;
}

/* Takes a step where it is allowed. */
static int take(const struct step *step, struct gates *gates)
{
    if (step->place == 0 || step->place >= gates->count)
        return 0;
    uint16_t *pair = gates->records + step->place - 1;
    unsigned target = pair[0] / 132, slot = pair[0] / 4 % 33, other = pair[1] / 132, other_slot = pair[1] / 4 % 33;
    if (!step->merges) {
        uint16_t first = pair[0];
        if (slot == other + 1 || other_slot == target + 1)
            return 0;
        pair[0] = pair[1];
        pair[1] = first;
        return 1;
    }
    if (target != other || slot != other_slot)
        return 0;
    unsigned power = (pair[0] + pair[1]) % 4, left = power != 0;
    pair[0] = (uint16_t)(pair[0] - pair[0] % 4 + power);
    memmove(pair + left, pair + 2, (gates->count - step->place - 1) * sizeof *pair);
    gates->count -= 2 - left;
    return 1;
}

/* What slip has to return, and the circuit that the steps end at where they are all
   allowed; it is whole where the number is 0 or 13. */
static struct verdict slip_due(const struct side *first, const struct slip *slip, const struct side *second,
                               struct gates *end)
{
    static struct gates others;
    const struct answer *a = &first->reduced, *b = &second->reduced;
    if (a->number)
        return (struct verdict){ a->number, a->line, 1, 0 };
    if (slip->number)
        return (struct verdict){ slip->number, slip->line, 2, 0 };
    if (b->number)
        return (struct verdict){ b->number, b->line, 3, 0 };
    if (lines_of(first->text) != lines_of(second->text))
        return (struct verdict){ 11, 0, 0, 0 };
    read_gates(first->text, first->length, end);
    read_gates(second->text, second->length, &others);
    for (size_t i = 0; i < slip->count; i++)
        if (!take(&slip->steps[i], end))
            return (struct verdict){ 12, i + 1, 2, 0 };
    if (end->count != others.count || memcmp(end->records, others.records, end->count * sizeof *end->records))
        return (struct verdict){ 13, 0, 0, 0 };
    return (struct verdict){ 0, 0, 0, 0 };
}

/* Checks a list: on success the circuit that the steps end at, which is the second one,
   else what a refusal leaves. */
static void check_slip_list(const struct verdict *got, const struct gates *end, const struct area *area,
                            size_t list_length, uint8_t junk)
{
    const uint16_t *list = (const uint16_t *)area->bytes;
    uint16_t rest = got->number == 1 || got->number == 2 ? (uint16_t)(junk << 8 | junk) : YILGORZA_NOT_0;
    size_t gates = got->number ? 0 : end->count;
    if (memcmp(list, end->records, gates * sizeof *list))
        fail(SLIP, "a list isn't the second circuit");
    if (!all_records(list + gates, list_length - gates, rest))
        fail(SLIP, "the records after a list");
    if (!beside_unchanged(area, junk))
        fail(SLIP, "bytes beside a list were written");
}

/* One slip; gives its number. */
static uint64_t follow(const struct side *first, const struct slip *slip, const struct side *second, int at_front,
                       uint8_t junk, struct gates *end)
{
    const uint8_t *bytes[3] = { first->text, slip->text, second->text };
    size_t lengths[3] = { first->length, slip->length, second->length };
    size_t list_lengths[2] = { first->list_length, second->list_length };
    struct area texts[3], lists[2];
    /* The list of the second circuit has junk of its own. */
    uint8_t junks[2] = { junk, (uint8_t)(junk ^ 1) };
    uint64_t outcome[6] = { 99, 99, 99, 99, 99, 99 };
    struct verdict expected = slip_due(first, slip, second, end);
    for (int i = 0; i < 3; i++) {
        lend(&texts[i], lengths[i], at_front, junk);
        if (lengths[i])
            memcpy(texts[i].bytes, bytes[i], lengths[i]);
    }
    for (int i = 0; i < 2; i++)
        lend(&lists[i], list_lengths[i] * sizeof(uint16_t), at_front, junks[i]);
    yilgorza_slip(texts[0].bytes, lengths[0], (uint16_t *)lists[0].bytes, list_lengths[0], texts[1].bytes, lengths[1],
                  texts[2].bytes, lengths[2], (uint16_t *)lists[1].bytes, list_lengths[1], outcome + 1);
    struct verdict got = { outcome[1], outcome[2], outcome[3], outcome[4] };
    if (outcome[0] != 99 || outcome[5] != 99)
        fail(SLIP, "a word beside the outcome was written");
    if (memcmp(&got, &expected, sizeof got))
        fail(SLIP, "reduce or the steps say otherwise");
    for (int i = 1; i >= 0; i--) {
        check_slip_list(&got, end, &lists[i], list_lengths[i], junks[i]);
        take_back(&lists[i]);
    }
    for (int i = 2; i >= 0; i--) {
        if (lengths[i] && memcmp(texts[i].bytes, bytes[i], lengths[i]))
            fail(SLIP, "a text was changed");
        if (!beside_unchanged(&texts[i], junk))
            fail(SLIP, "bytes beside a text were written");
        take_back(&texts[i]);
    }
    slips_accepted += !got.number && slip->count;
    slips_not_allowed += got.number == 12;
    slips_elsewhere += got.number == 13;
    slips_of_other_lines += got.number == 11;
    slips_not_read += got.number != 1 && got.text == 2 && got.number != 12;
    count_outcome(SLIP, got.number, got.line, got.text, got.count);
    return got.number;
}

/* A slip between two circuits, either way round; and where its steps lead from the first,
   which has the same reduced list. */
static void slips_of_two_texts(struct slip *slip, const struct side *sides, int at_front, uint8_t junk)
{
    static uint8_t text[LONGEST_JOIN];
    static struct side last;
    static struct gates end;
    read_slip(slip);
    follow(&sides[0], slip, &sides[1], at_front, junk, &end);
    for (int i = 1; i >= 0; i--) {
        uint64_t number = follow(&sides[i], slip, &sides[i], at_front, junk, &end);
        if (number && number != 13)
            continue;
        size_t length = put_gates(text, lines_of(sides[i].text), &end);
        last = (struct side){ .text = text, .length = length, .list_length = sides[i].list_length };
        run(REDUCE, text, length, last.list_length, AMPLE, at_front, junk, &last.reduced);
        if (last.reduced.number || !same_list(&last.reduced, &sides[i].reduced))
            fail(SLIP, "steps lead to another reduced list");
        if (follow(&sides[i], slip, &last, at_front, junk, &end))
            fail(SLIP, "the circuit that the steps end at is refused");
    }
    follow(&sides[1], slip, &sides[0], at_front, junk, &end);
}

/* ---- Inputs ---- */

/* Of the choices the fourth is another one for a slip. */
enum { LONGEST_INPUT = LONGEST_TEXT + 8, MANY_STEPS = 8 };

/* A text of an input, its last line repeated, in the room given, where the input
   says so. */
static const uint8_t *text_of(uint8_t *text, const uint8_t *data, size_t *length, unsigned choice, unsigned detail)
{
    size_t limit, times = 0;
    switch (choice) {
    case 4:
        limit = LONGEST_INPUT;
        times = SHORTEST_LIST / 2 - 8 + detail % 16;
        break;
    case 5:
        limit = LONGEST_INPUT;
        times = 300;
        break;
    case 6:
        limit = LONGEST_INPUT;
        times = 4100;
        break;
    case 7:
        limit = LONGEST_TEXT - 1 + detail % 4;
        times = limit;
        break;
    case MANY_STEPS:
        limit = LONGEST_INPUT;
        times = MOST_STEPS - 8 + detail % 16;
        break;
    default:
        return data;
    }
    size_t end = *length < limit ? *length : limit;
    if (end)
        memcpy(text, data, end);
    size_t line = end;
    while (line > 0 && (line == end || text[line - 1] != '\n'))
        line--;
    size_t size = end - line;
    for (size_t i = 0; size && i < times && end < limit; i++) {
        size_t part = size < limit - end ? size : limit - end;
        memcpy(text + end, text + line, part);
        end += part;
    }
    *length = end;
    return text;
}

static void jobs_over_one_text(const uint8_t *choices, const uint8_t *text, size_t length, size_t list_length,
                               int at_front, uint8_t junk)
{
    static const enum call jobs[] = { MAP, REDUCE, INVERT };
    static struct answer answers[CALLS], empty, again;
    const struct answer *mapped = &answers[MAP];
    struct lines found;
    int keeps = has_keep(text, length);
    for (size_t which = 0; which < sizeof jobs / sizeof *jobs; which++) {
        enum call job = jobs[which];
        size_t answer_length = (choices[1] & 3) == 3 ? choices[2] : AMPLE;
        run(job, text, length, list_length, answer_length, at_front, junk, &answers[job]);
        if (job != MAP && keeps)
            check_no_circuit(job, &answers[job]);
        size_t written = answers[job].bytes;
        if (!written)
            continue;
        if (job != MAP && has_sign(text, length))
            fail(job, "a circuit with a minus sign");
        /* Again with the answer area fitting exactly; or one short, and the
           shortest that is refused, which but for map is empty. */
        if ((choices[1] & 3) == 1) {
            run(job, text, length, list_length, written, at_front, junk, &again);
            if (again.number || again.bytes != written || !same_list(&again, &answers[job]))
                fail(job, "an answer area that fits");
        } else if ((choices[1] & 3) == 2) {
            size_t shorter[] = { written - 1, job == MAP ? 1 : 0 };
            for (int i = 0; i < 2; i++) {
                run(job, text, length, list_length, shorter[i], at_front, junk, &again);
                if (again.number != 10)
                    fail(job, "an answer area that is short");
            }
        }
        /* What is reduced stays as it is. */
        run(REDUCE, answers[job].text, written, list_length, AMPLE, at_front, junk, &again);
        if (again.number || again.bytes != written || !same_list(&again, &answers[job])
            || memcmp(again.text, answers[job].text, written))
            fail(job, "the answer isn't its own reduced list");
    }
    /* With an empty area map refuses the same, but for 10, and gives the same list. */
    run(MAP, text, length, list_length, 0, at_front, junk, &empty);
    if (mapped->number == 10 ? empty.number != 0 : mapped->number != empty.number || mapped->line != empty.line)
        fail(MAP_EMPTY_AREA, "with an area it refuses otherwise");
    if (mapped->number == 0 && !same_list(mapped, &empty))
        fail(MAP_EMPTY_AREA, "with an area it gives another list");
    check_rules(text, length, &empty, &found);
    if (keeps)
        check_kept(text, length, list_length, at_front, junk, &empty, &found);
    if (has_sign(text, length))
        check_signs(text, length, list_length, at_front, junk, &empty);
}

/* Two texts in both orders, and each with itself. */
static void job_over_two_texts(struct side *sides, int at_front, uint8_t junk)
{
    for (int i = 0; i < 2; i++)
        run(REDUCE, sides[i].text, sides[i].length, sides[i].list_length, AMPLE, at_front, junk, &sides[i].reduced);
    struct verdict there = compare(&sides[0], &sides[1], at_front, junk);
    struct verdict back = compare(&sides[1], &sides[0], at_front, junk);
    if ((there.number == 0) != (back.number == 0))
        fail(COMPARE, "refused in one order only");
    if (there.number == 0 && there.count + back.count != YILGORZA_LESS + YILGORZA_GREATER)
        fail(COMPARE, "less and greater don't change places with the texts");
    for (int i = 0; i < 2; i++) {
        struct verdict itself = compare(&sides[i], &sides[i], at_front, junk);
        if (itself.number == 0 && itself.count != YILGORZA_EQUAL)
            fail(COMPARE, "a text isn't equal to itself");
    }
}

int LLVMFuzzerTestOneInput(const uint8_t *data, size_t size)
{
    static const size_t list_lengths[] = { 4096, 4096, 4096, 4096, 4096, 4096, 4096, 4096,
                                           4096, 4095, 4097, 5000, 4500, 4094, 1, 0 };
    static uint8_t repeated[3][LONGEST_INPUT];
    static struct side sides[2];
    static struct slip slip;
    if (size < 4)
        return 0;
    const uint8_t *first = data + 4, *end = data + size;
    const uint8_t *cut = memchr(first, '%', (size_t)(end - first));
    const uint8_t *second = cut ? cut + 1 : end;
    const uint8_t *cut_again = memchr(second, '%', (size_t)(end - second));
    const uint8_t *third = cut_again ? cut_again + 1 : end;
    sides[0].length = (size_t)((cut ? cut : end) - first);
    sides[0].text = text_of(repeated[0], first, &sides[0].length, data[3] >> 1 & 7, data[2]);
    sides[0].list_length = list_lengths[data[0] & 15];
    sides[1].length = (size_t)((cut_again ? cut_again : end) - second);
    sides[1].text = text_of(repeated[1], second, &sides[1].length, data[3] >> 4 & 7, data[2]);
    sides[1].list_length = list_lengths[data[0] >> 4];
    unsigned choice = data[1] >> 4 & 7;
    slip.length = (size_t)(end - third);
    slip.text = text_of(repeated[2], third, &slip.length, choice == 4 ? MANY_STEPS : choice, data[2]);
    if (sides[0].length > LONGEST_INPUT || sides[1].length > LONGEST_INPUT || slip.length > LONGEST_INPUT)
        return 0;
    int at_front = data[3] & 1;
    uint8_t junk = (uint8_t)(data[2] | 0x20);
    jobs_over_one_text(data, sides[0].text, sides[0].length, sides[0].list_length, at_front, junk);
    job_over_two_texts(sides, at_front, junk);
    joins_of_two_texts(data, sides, at_front, junk);
    check_inverse(&sides[0], at_front, junk);
    slips_of_two_texts(&slip, sides, at_front, junk);
    return 0;
}

#ifdef REPLAY

/* The corpus has more of them than that. */
enum { FEWEST_SIGNED = 5, FEWEST_WIDE = 3, FEWEST_INVERTED = 20, FEWEST_JOINED = 40, FEWEST_REFUSED = 4 };
enum { FEWEST_KEPT = 10, FEWEST_KEPT_REFUSED = 2 };
enum { FEWEST_SLIPS = 20, FEWEST_SLIPS_REFUSED = 10 };

int main(int argc, char **argv)
{
    static uint8_t data[1 << 17];
    for (int i = 1; i < argc; i++) {
        FILE *file = fopen(argv[i], "rb");
        if (!file) {
            perror(argv[i]);
            return 1;
        }
        size_t size = fread(data, 1, sizeof data, file);
        fclose(file);
        LLVMFuzzerTestOneInput(data, size);
    }
    if (signed_cascades < FEWEST_SIGNED) {
        fprintf(stderr, "fuzz: FAILED: only %lu cascades with a minus sign were accepted\n", signed_cascades);
        return 1;
    }
    if (wide_no_spare < FEWEST_WIDE || wide_with_spare < FEWEST_WIDE) {
        fprintf(stderr, "fuzz: FAILED: only %lu and %lu cascades were refused at 16 or more controls\n",
                wide_no_spare, wide_with_spare);
        return 1;
    }
    if (kept_cascades < FEWEST_KEPT || kept_no_spare < FEWEST_KEPT_REFUSED || keeps_refused < FEWEST_KEPT_REFUSED) {
        fprintf(stderr, "fuzz: FAILED: only %lu cascades with a keep line were accepted, %lu refused by 8, %lu by 4 or 6\n",
                kept_cascades, kept_no_spare, keeps_refused);
        return 1;
    }
    if (inverted < FEWEST_INVERTED || joined < FEWEST_JOINED || joins_of_other_lines < FEWEST_REFUSED
        || joins_over < FEWEST_REFUSED) {
        fprintf(stderr, "fuzz: FAILED: only %lu circuits were inverted, %lu joined, %lu refused by 11, %lu by 9\n",
                inverted, joined, joins_of_other_lines, joins_over);
        return 1;
    }
    if (slips_accepted < FEWEST_SLIPS || slips_not_allowed < FEWEST_SLIPS_REFUSED
        || slips_elsewhere < FEWEST_SLIPS_REFUSED || slips_of_other_lines < FEWEST_SLIPS_REFUSED
        || slips_not_read < FEWEST_SLIPS_REFUSED) {
        fprintf(stderr, "fuzz: FAILED: only %lu slips were accepted, %lu refused by 12, %lu by 13, %lu by 11, %lu by their lines\n",
                slips_accepted, slips_not_allowed, slips_elsewhere, slips_of_other_lines, slips_not_read);
        return 1;
    }
    printf("%d passed, 0 failed\n", argc - 1);
    return argc > 1 ? 0 : 1;
}

#endif
