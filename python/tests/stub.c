/* Functions that answer what the library never does: to an empty text a circuit
   of one gate whose number is no gate's, and compare and slip a count of 3; to any
   other the refusal 99, but map, reduce and invert to one of two bytes no gates with
   the text of one, and join to such a one no text. */

#include <stddef.h>
#include <stdint.h>
#include <string.h>

static const char circuit[] = "(lines 1)\n(not 0)\n";

void yilgorza_map(const uint8_t *text, size_t text_len, uint16_t *list,
                  size_t list_len, uint8_t *answer, size_t answer_len,
                  uint64_t *outcome) {
    size_t written = answer_len ? strlen(circuit) : 0;
    (void)text, (void)list_len;
    memcpy(answer, circuit, written);
    list[0] = 65535;
    outcome[0] = text_len == 0 || text_len == 2 ? 0 : 99;
    outcome[1] = 0;
    outcome[2] = text_len == 0 ? 1 : 0;
    outcome[3] = outcome[0] ? 0 : written;
}

void yilgorza_reduce(const uint8_t *text, size_t text_len, uint16_t *list,
                     size_t list_len, uint8_t *answer, size_t answer_len,
                     uint64_t *outcome) {
    yilgorza_map(text, text_len, list, list_len, answer, answer_len, outcome);
}

void yilgorza_invert(const uint8_t *text, size_t text_len, uint16_t *list,
                     size_t list_len, uint8_t *answer, size_t answer_len,
                     uint64_t *outcome) {
    yilgorza_map(text, text_len, list, list_len, answer, answer_len, outcome);
}

void yilgorza_join(const uint8_t *first, size_t first_len, uint16_t *list,
                   size_t list_len, const uint8_t *second, size_t second_len,
                   uint8_t *answer, size_t answer_len, uint64_t *outcome) {
    (void)second, (void)second_len;
    yilgorza_map(first, first_len, list, list_len, answer, answer_len, outcome);
    outcome[2] = 0;
    outcome[3] = first_len == 0 ? strlen(circuit) : 0;
}

void yilgorza_compare(const uint8_t *first, size_t first_len,
                      uint16_t *first_list, size_t first_list_len,
                      const uint8_t *second, size_t second_len,
                      uint16_t *second_list, size_t second_list_len,
                      uint64_t *outcome) {
    (void)first, (void)first_list, (void)first_list_len, (void)second;
    (void)second_len, (void)second_list, (void)second_list_len;
    outcome[0] = first_len == 0 ? 0 : 99;
    outcome[1] = 0;
    outcome[2] = first_len == 0 ? 0 : 1;
    outcome[3] = first_len == 0 ? 3 : 0;
}

void yilgorza_slip(const uint8_t *first, size_t first_len, uint16_t *first_list,
                   size_t first_list_len, const uint8_t *slip, size_t slip_len,
                   const uint8_t *second, size_t second_len,
                   uint16_t *second_list, size_t second_list_len,
                   uint64_t *outcome) {
    (void)slip, (void)slip_len;
    yilgorza_compare(first, first_len, first_list, first_list_len, second, second_len,
                     second_list, second_list_len, outcome);
}

void yilgorza_gate(uint16_t record, uint8_t *gate) {
    (void)record;
    memset(gate, 0, 3);
}
