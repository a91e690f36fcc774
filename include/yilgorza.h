/* Yilgorza for C: maps a cascade of multiple-control Toffoli gates to a list of
   NCV gates, or quotes its gate count alone, reduces such a list, inverts it, joins
   two of them, says whether two are one circuit, and checks the steps that are said
   to lead from one to another.

   The functions are in the archive target/staticlib/libcapi.a, which
   `./build capi` proves and writes. `bin/shared-object ARCHIVE OUT` makes a
   shared object of it, and `./install` installs both, as libyilgorza.a and
   libyilgorza.so. The code is for x86-64 from its version 2 on, with the calling convention of System V.

   Proved, for every call that keeps what is asked of its pointers and lengths,
   none of them null: it ends, and what is said below of outcome, lists, answer
   area and gate holds, whatever the bytes of the texts
   (crates/capi/specs/Exported.antt has the contracts).

   Measured of the archive, by tests/interface/run, and not proved:

   - it is position independent: it links into programs at any address and at
     fixed ones, and into shared objects;
   - it needs nothing else but memcpy, memmove and memset, and does not enter the
     kernel: so nothing is allocated, and all memory is lent by the caller;
   - it has no data that can be written: so nothing is kept between calls;
   - calls may run at the same time, with lists, answer areas and outcomes of
     their own; they may share their texts;
   - a call takes less than 96 KiB of stack;
   - a pointer may be null if its length is 0. */

#ifndef YILGORZA_H
#define YILGORZA_H

#include <stddef.h>
#include <stdint.h>

#ifdef __cplusplus
extern "C" {
#endif

/* Limits. A longer text, or a shorter list, is refused. An area of
   YILGORZA_ANSWER_BYTES has room for every answer; a shorter one is enough for a
   shorter answer. */
#define YILGORZA_TEXT_BYTES 60000
#define YILGORZA_LIST_RECORDS 4096
#define YILGORZA_ANSWER_BYTES 45067

/* The places of the outcome of a job over one text, an area of four numbers. */
enum {
    YILGORZA_NUMBER = 0, /* 0, or the number of the refusal */
    YILGORZA_LINE = 1,   /* the line of the text that is refused, counted from 1;
                            0 on success and with the numbers 1, 2 and 10 */
    YILGORZA_GATES = 2,  /* on success the gates of the reduced list; else 0 */
    YILGORZA_BYTES = 3   /* on success the bytes written to the answer area, 0 if
                            map only quotes; else 0 */
};

/* The places of the outcome of a job over several texts, an area of four
   numbers. */
enum {
    YILGORZA_SEVERAL_NUMBER = 0, /* 0, or the number of the refusal */
    YILGORZA_SEVERAL_LINE = 1,   /* the line that is refused, counted from 1, of
                                    the text that the next place names; 0 on
                                    success and with the numbers 1, 2, 10, 11
                                    and 13 */
    YILGORZA_SEVERAL_TEXT = 2,   /* the text whose rule or line refuses, counted
                                    from 1 in the order in which the job takes
                                    them; 0 on success and with the numbers 10,
                                    11 and 13 */
    YILGORZA_SEVERAL_COUNT = 3   /* on success what compare finds, or the bytes
                                    that join writes; from slip, and else, 0 */
};

/* What compare finds, as its count: the first text is less than the second, equal
   to it or greater. */
enum { YILGORZA_LESS = 0, YILGORZA_EQUAL = 1, YILGORZA_GREATER = 2 };

/* The numbers of a refusal. n is the number of line 1, `(lines n)`; docs/USING.md
   of the repository has the forms of the texts. A control with a minus sign directly
   before it, as in `(mct (-0 1) 2)`, is negated: it is met when its line is 0, any
   other when its line is 1. Numbers 4 to 8 read the lines, whatever the signs.

   A cascade may have `(keep a b ..)` as line 2 of the text, with at least one number
   and without signs: lines of the circuit that nobody may borrow. A kept line that an
   mct does not name is no spare line of it, or of any smaller gate that it is made
   of; so the list has a gate on a kept line only if some mct names it. In a circuit
   text it is malformed, and the answer of map has none.

   A slip is a text of steps, and has no `(lines n)`; yilgorza_slip has its forms. By
   itself it can get the numbers 1, 3 and 9 alone.

   Number 1 is tried first, then 2. Then the lines of the text are taken in order,
   `(keep ..)` among them, and each is tried against 3, 4, 5, 6, 8, 7 and 9, in this
   order; the first line that fails is returned. So a line that passes 3 to 6 and has
   16 or more controls gets 8 if the gate may borrow no line, else 7. Then comes 10. Of
   several texts each is tried against 1 to 9, against 2 with the list that is judged
   with it, if there is one, before the next one is looked at; then comes 11, then the
   9 of a join, or 12 and 13 of a slip, and 10 is the last. */
enum {
    YILGORZA_SUCCESS = 0,
    YILGORZA_OVERLONG = 1,         /* the text has more than 60,000 bytes */
    YILGORZA_SHORT_LIST = 2,       /* the list has fewer than 4,096 records */
    YILGORZA_MALFORMED = 3,        /* a line of the text is not in form, or the text
                                      is empty and not a slip; a sign is in form only
                                      as a minus sign directly before a control of an
                                      mct, and `(keep ..)` only as line 2 of a
                                      cascade */
    YILGORZA_NO_SUCH_LINE = 4,     /* a number is n or more: the circuit has no such
                                      line; in line 1 of the text, n is not in 1 to
                                      32 */
    YILGORZA_CROSSED = 5,          /* a control equals the target */
    YILGORZA_UNSORTED = 6,         /* the controls do not strictly rise by line, or
                                      the numbers of `(keep ..)` do not */
    YILGORZA_TOO_WIDE = 7,         /* more than 15 controls, negated ones counted;
                                      tried after 8 */
    YILGORZA_NO_SPARE = 8,         /* three or more controls, and the gate may borrow
                                      no line: each of the n is named by it, as
                                      control or target, or kept; tried before 7 */
    YILGORZA_TOO_MANY = 9,         /* the 257th mct, an expansion past 4,096 gates
                                      with this line, two NOTs for each negated
                                      control counted, or the 4,097th gate of a
                                      circuit; from join also the 4,097th of both
                                      circuits together, from slip the 4,097th step */
    YILGORZA_SHORT_ANSWER = 10,    /* the answer text is longer than its area; never
                                      from map with an area of length 0 */
    YILGORZA_DIFFERENT_LINES = 11, /* the two circuits of a join, or of a slip, have
                                      not the same n */
    YILGORZA_NOT_ALLOWED = 12,     /* a step of a slip is not allowed on the circuit
                                      so far */
    YILGORZA_OTHER_END = 13        /* the slip ends at another circuit than the
                                      second */
};

/* A record of the list is a gate as a number:

       (target * 33 + slot) * 4 + power

   A NOT has slot 0 and power 2. Any other gate has slot control + 1, and power 1
   (v), 2 (cn) or 3 (vp). So the order of the numbers is the order of the gates:
   by target, then control, a NOT before control 0, then power. yilgorza_gate
   reads a record. This is the record of `not 0`. */
#define YILGORZA_NOT_0 2

/* Asked of a call of a job: the lengths are the true lengths of the areas. Each
   pointer has its type's alignment, and is not null; with a length of 0 it may be.
   None of the areas that are written overlaps another area. A text is only read. It
   may hold any bytes, and the areas may have any lengths. */

/* The jobs over one text. Each takes a text of text_len bytes, a list of list_len
   records, an answer area of answer_len bytes and an outcome of four numbers.

   On success the list holds first the reduced list, gate by gate, and `not 0` in
   every later record; the answer area holds that list as a circuit text at its
   front, its other bytes unchanged. The outcome says how many gates that list has
   and how many bytes that text; the text has one line more than there are gates.

   A refusal leaves the answer area unchanged. Numbers 1 and 2 leave the list
   unchanged, the others leave `not 0` in every record. So on success and with the
   numbers 3 to 10 all list_len records are written, those past 4,096 too. */

/* Maps a cascade text to a circuit text.

   A gate with three or more controls borrows lines, which have their old bits again
   at the end; the lines that the cascade keeps, and the gate does not name, are not
   among them. The quote goes by the lines that may be borrowed.

   With an answer area of length 0, whose pointer may be null, it only quotes: it
   answers as with an area that is long enough, with the same gates and the same
   list, but writes no text, and its bytes are 0. */
void yilgorza_map(const uint8_t *text, size_t text_len, uint16_t *list,
                  size_t list_len, uint8_t *answer, size_t answer_len,
                  uint64_t *outcome);

/* Reduces a circuit text. For it an answer area of length 0 is too short: number
   10. */
void yilgorza_reduce(const uint8_t *text, size_t text_len, uint16_t *list,
                     size_t list_len, uint8_t *answer, size_t answer_len,
                     uint64_t *outcome);

/* Inverts a circuit text: its gates are reversed, v and vp are exchanged, and the
   circuit so made is reduced. It undoes the circuit: one after the other, either
   way round, leaves every pattern of bits as it was. It refuses exactly what reduce
   refuses, but that 10 goes by the length of its own answer, and an answer area of
   length 0 is too short for it too. */
void yilgorza_invert(const uint8_t *text, size_t text_len, uint16_t *list,
                     size_t list_len, uint8_t *answer, size_t answer_len,
                     uint64_t *outcome);

/* Joins two circuit texts, the first before the second, and reduces the circuit so
   made. It has one list, which is judged with the first text, and one answer area;
   the outcome has the places for several texts. The two texts may be one area.

   On success the list holds first the reduced list of the join, and `not 0` in every
   later record; the answer area holds it as a circuit text at its front, its other
   bytes unchanged, and the count is the bytes of that text. How many gates the list
   has is not returned: the text has one line more.

   Of the numbers only 1, 2, 3, 4, 5, 9, 10 and 11 are given. First come those of the
   first text, then those of the second, with their text numbers. Number 11 comes
   next, if the two texts have not the same n. Then 9: if the circuits as read, before
   any reduction, have together more than 4,096 gates, say m and more than 4,096 - m,
   the text number is 2 and the line 4,096 - m + 2, that of the first gate over. The
   last is 10; an answer area of length 0 is too short.

   A refusal leaves the answer area unchanged. Number 1, of either text, and number 2
   leave the list unchanged, the others leave `not 0` in every record. */
void yilgorza_join(const uint8_t *first, size_t first_len, uint16_t *list,
                   size_t list_len, const uint8_t *second, size_t second_len,
                   uint8_t *answer, size_t answer_len, uint64_t *outcome);

/* The other job over two texts: are they one circuit? Each is a circuit text with a
   list of its own, and the outcome has the places for several texts. The two texts
   may be one area.

   The circuits are compared by n first, the smaller one being less. With the same
   n their reduced lists are compared in dictionary order, gate by gate in the order
   of their numbers; a list that ends sooner is less than one that goes on. So they
   are equal exactly if n is the same and passes and merges lead from one circuit to
   the other. The order is total: it can sort texts, and puts those of one circuit
   side by side. Less and greater change places if the texts do.

   On success each list holds first the reduced list of its own text, and `not 0` in
   every later record. How many gates it has is not returned, and its records do
   not show it, as its last gate may be a `not 0` too: reduce returns it.

   Of the numbers only 1, 2, 3, 4, 5 and 9 are given. Numbers 1 and 2, of either
   text, leave both lists unchanged, also that of a first text which had nothing
   wrong. The others leave `not 0` in every record of both lists, also in those of
   a list with fewer than 4,096. */
void yilgorza_compare(const uint8_t *first, size_t first_len,
                      uint16_t *first_list, size_t first_list_len,
                      const uint8_t *second, size_t second_len,
                      uint16_t *second_list, size_t second_list_len,
                      uint64_t *outcome);

/* The job over three texts: do these steps lead from one circuit to the other? The
   first text is a circuit text, the second a slip, and the third a circuit text, the
   second circuit. Each circuit has a list of its own, which is judged with its text;
   the slip has none. The outcome has the places for several texts, and its count is
   always 0. The texts may be one area.

   Each line of a slip is a step, `(pass i)` or `(merge i)`, ended by byte 10. It has
   at most 4,096 of them, and may be empty: a text of length 0. The number i, of one to
   four digits and without a leading zero except 0 itself, is the place, counted from
   1, of the first of two neighbours in the circuit so far. A pass exchanges the gates
   at i and i + 1; it is allowed if neither's target is the other's control. A merge is
   allowed if the two have the same control and target: one gate stands in their place,
   whose power is the sum of theirs modulo 4, or none if that is 0; two NOTs on one
   line vanish. Neither is allowed at place 0, or at one without a right neighbour.

   The slip is accepted exactly if each step is allowed on the circuit so far and the
   last circuit is the second, gate for gate. What is accepted is linked: passes and
   merges lead from one circuit to the other, so compare finds them equal, and they
   have one reduced list. Accepted slips, one after the other, are accepted as one,
   where it has at most 4,096 lines. Some list of steps leads from every circuit to its
   reduced list, but it may be longer than a slip may be.

   On success the first list holds first the circuit that the steps ended at, the
   second list the second circuit, which has the same gates; and `not 0` stands in
   every later record of both. How many gates there are is not returned: the text of
   the second circuit has one line more.

   Of the numbers only 1, 2, 3, 4, 5, 9, 11, 12 and 13 are given. First come those of
   the first circuit, text 1, then those of the slip, text 2, which are 1, 3 and 9, then
   those of the second circuit, text 3. Number 11 comes next, with text number 0, if
   the circuits have not the same n. Then the steps are taken: number 12 has the text
   number 2, and the line of the first one that is not allowed. The last is 13, with
   text number and line 0.

   Numbers 1 and 2, of whichever text, leave both lists unchanged. The others leave
   `not 0` in every record of both lists, also in those of a list with fewer than
   4,096. */
void yilgorza_slip(const uint8_t *first, size_t first_len, uint16_t *first_list,
                   size_t first_list_len, const uint8_t *slip, size_t slip_len,
                   const uint8_t *second, size_t second_len,
                   uint16_t *second_list, size_t second_list_len,
                   uint64_t *outcome);

/* Reads a record into an area of three bytes: kind, control and target. The pointer
   is not null. A NOT has control 0. The kind is 0, with control and target 0, for
   every number that no gate on 32 lines has. */
void yilgorza_gate(uint16_t record, uint8_t *gate);

/* The places of a gate that was read, and the kinds. */
enum { YILGORZA_KIND = 0, YILGORZA_CONTROL = 1, YILGORZA_TARGET = 2 };

enum {
    YILGORZA_NO_GATE = 0,
    YILGORZA_V = 1,
    YILGORZA_CN = 2,
    YILGORZA_VP = 3,
    YILGORZA_NOT = 4
};

#ifdef __cplusplus
}
#endif

#endif
