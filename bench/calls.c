/* Calls of map for bench/run, which counts their instructions: the cascade on
   standard input is mapped once for each argument, the length of the answer area,
   0 to 45067. The four numbers of each outcome are printed, a line each.

   usage: calls LENGTH.. */

#include "../include/yilgorza.h"

#include <inttypes.h>
#include <stdio.h>
#include <stdlib.h>

static uint8_t text[YILGORZA_TEXT_BYTES + 1], answer[YILGORZA_ANSWER_BYTES];
static uint16_t list[YILGORZA_LIST_RECORDS];

int main(int argc, char **argv)
{
    size_t text_length = fread(text, 1, sizeof text, stdin);
    for (int i = 1; i < argc; i++) {
        uint64_t outcome[4];
        size_t answer_length = strtoul(argv[i], NULL, 10);
        if (answer_length > sizeof answer)
            return 2;
        yilgorza_map(text, text_length, list, YILGORZA_LIST_RECORDS, answer, answer_length, outcome);
        printf("%" PRIu64 " %" PRIu64 " %" PRIu64 " %" PRIu64 "\n", outcome[0], outcome[1], outcome[2], outcome[3]);
    }
    return 0;
}
