/* Maps the Toffoli gate, and prints the number of gates, the answer and the gate
   list, all from one call. Uncomputes it: inverts the circuit, and joins the two, of
   which nothing is left. Quotes the same gate written twice. Then compares a circuit
   that was ordered with two drawings of it that came later, one of them with a line
   that the circuit does not have, and joins it with one on another number of lines.
   Last it checks the steps that a customer has sent with a reduction; then steps of
   which one is not allowed, and the first ones with another drawing as their end. */

#include <inttypes.h>
#include <stdio.h>
#include <string.h>

#include "yilgorza.h"

static const char once[] = "(lines 3)\n(mct (0 1) 2)\n";
static const char twice[] = "(lines 3)\n(mct (0 1) 2)\n(mct (0 1) 2)\n";

static const char ordered[] = "(lines 3)\n(v 1 2)\n(v 1 2)\n";
static const char redrawn[] = "(lines 3)\n(cn 0 2)\n(cn 1 2)\n(cn 0 2)\n";
static const char mistyped[] = "(lines 3)\n(cn 0 2)\n(cn 1 3)\n(cn 0 2)\n";
static const char wider[] = "(lines 4)\n(cn 2 3)\n";

/* The steps from the redrawn circuit to its reduced list: the last gate passes the
   one before it, meets the first, and the two vanish. */
static const char shorter[] = "(lines 3)\n(cn 1 2)\n";
static const char steps[] = "(pass 2)\n(merge 1)\n";
static const char wrong_steps[] = "(pass 2)\n(merge 2)\n";

static uint16_t list[YILGORZA_LIST_RECORDS];
static uint16_t second_list[YILGORZA_LIST_RECORDS];
static uint8_t answer[YILGORZA_ANSWER_BYTES], inverse[YILGORZA_ANSWER_BYTES];
static uint8_t joined[YILGORZA_ANSWER_BYTES];

/* The name of a kind of gate, and of what compare finds. */
static const char *const kinds[] = {"?", "v", "cn", "vp", "not"};
static const char *const found[] = {"less", "equal", "greater"};

static void print_gate(uint16_t record) {
    uint8_t gate[3];
    yilgorza_gate(record, gate);
    printf("%4u  %s", (unsigned)record, kinds[gate[YILGORZA_KIND]]);
    if (gate[YILGORZA_KIND] != YILGORZA_NOT)
        printf(", control %u", gate[YILGORZA_CONTROL]);
    printf(", target %u\n", gate[YILGORZA_TARGET]);
}

/* Whether the job accepted the text; if not, says why. */
static int accepted(const uint64_t *outcome) {
    if (outcome[YILGORZA_NUMBER] == YILGORZA_SUCCESS)
        return 1;
    printf("turned away: number %" PRIu64 ", line %" PRIu64 "\n",
           outcome[YILGORZA_NUMBER], outcome[YILGORZA_LINE]);
    return 0;
}

/* Whether the job over several texts accepted them; if not, says which it did not. */
static int all_accepted(const char *job, const uint64_t *outcome) {
    if (outcome[YILGORZA_SEVERAL_NUMBER] == YILGORZA_SUCCESS)
        return 1;
    if (outcome[YILGORZA_SEVERAL_TEXT] == 0)
        printf("%s: the texts are turned away: number %" PRIu64 "\n", job,
               outcome[YILGORZA_SEVERAL_NUMBER]);
    else
        printf("%s: text %" PRIu64 " is turned away: number %" PRIu64
               ", line %" PRIu64 "\n",
               job, outcome[YILGORZA_SEVERAL_TEXT], outcome[YILGORZA_SEVERAL_NUMBER],
               outcome[YILGORZA_SEVERAL_LINE]);
    return 0;
}

/* Maps a cascade text, with an answer area of this length, and prints how many gates
   and bytes there are, and the bytes. */
static int map(const char *text, size_t answer_len, uint64_t *outcome) {
    yilgorza_map((const uint8_t *)text, strlen(text), list, YILGORZA_LIST_RECORDS,
                 answer, answer_len, outcome);
    if (!accepted(outcome))
        return 0;
    printf("map: %" PRIu64 " gates, %" PRIu64 " bytes\n", outcome[YILGORZA_GATES],
           outcome[YILGORZA_BYTES]);
    fwrite(answer, 1, outcome[YILGORZA_BYTES], stdout);
    return 1;
}

/* Joins two circuit texts, the first before the second, and prints the circuit, or
   which text is turned away. */
static void join(const uint8_t *first, size_t first_len, const uint8_t *second,
                 size_t second_len) {
    uint64_t outcome[4];
    yilgorza_join(first, first_len, list, YILGORZA_LIST_RECORDS, second, second_len,
                  joined, YILGORZA_ANSWER_BYTES, outcome);
    if (!all_accepted("join", outcome))
        return;
    printf("join: %" PRIu64 " bytes\n", outcome[YILGORZA_SEVERAL_COUNT]);
    fwrite(joined, 1, outcome[YILGORZA_SEVERAL_COUNT], stdout);
}

/* Inverts the circuit text of so many bytes in the answer area, prints what undoes
   it, and joins it with this. */
static int uncompute(size_t answer_len) {
    uint64_t outcome[4];
    yilgorza_invert(answer, answer_len, list, YILGORZA_LIST_RECORDS, inverse,
                    YILGORZA_ANSWER_BYTES, outcome);
    if (!accepted(outcome))
        return 0;
    printf("invert: %" PRIu64 " gates, %" PRIu64 " bytes\n", outcome[YILGORZA_GATES],
           outcome[YILGORZA_BYTES]);
    fwrite(inverse, 1, outcome[YILGORZA_BYTES], stdout);
    join(answer, answer_len, inverse, outcome[YILGORZA_BYTES]);
    return 1;
}

/* Compares two circuit texts, and prints what is found, or which is turned away. */
static void compare(const char *first, const char *second) {
    uint64_t outcome[4];
    yilgorza_compare((const uint8_t *)first, strlen(first), list,
                     YILGORZA_LIST_RECORDS, (const uint8_t *)second,
                     strlen(second), second_list, YILGORZA_LIST_RECORDS, outcome);
    if (all_accepted("compare", outcome))
        printf("compare: %s\n", found[outcome[YILGORZA_SEVERAL_COUNT]]);
}

/* Checks whether a slip leads from one circuit text to another, and prints that it is
   accepted, or which text is turned away. */
static void slip(const char *first, const char *slip_text, const char *second) {
    uint64_t outcome[4];
    yilgorza_slip((const uint8_t *)first, strlen(first), list, YILGORZA_LIST_RECORDS,
                  (const uint8_t *)slip_text, strlen(slip_text),
                  (const uint8_t *)second, strlen(second), second_list,
                  YILGORZA_LIST_RECORDS, outcome);
    if (all_accepted("slip", outcome))
        printf("slip: accepted\n");
}

int main(void) {
    uint64_t outcome[4];

    if (!map(once, YILGORZA_ANSWER_BYTES, outcome))
        return 1;
    for (uint64_t i = 0; i < outcome[YILGORZA_GATES]; i++)
        print_gate(list[i]);
    if (!uncompute(outcome[YILGORZA_BYTES]))
        return 1;
    /* An answer area of length 0 asks for the quote only; its pointer may be null. */
    if (!map(twice, 0, outcome))
        return 1;

    compare(ordered, redrawn);
    print_gate(list[0]);
    print_gate(second_list[0]);
    compare(ordered, mistyped);
    join((const uint8_t *)ordered, strlen(ordered), (const uint8_t *)wider,
         strlen(wider));

    slip(redrawn, steps, shorter);
    print_gate(list[0]);
    slip(redrawn, wrong_steps, shorter);
    slip(redrawn, steps, ordered);
    return 0;
}
