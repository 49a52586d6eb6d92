/* Nufsadeem for C. Link libnufsadeem.a, which `host/archive` makes.
 *
 * Every call takes any numbers, any bytes and any lengths, and says in its answer whether it refuses them.
 *
 * Answers. Where a call answers, `number` and `place` are 0. Where it refuses, `number` is the rule that is broken, `place` says
 * where, and every other field is 0. Rules are checked in the order in which a call's comment lists them, and the first that is
 * broken is told.
 *
 * Memory. A refused call changes nothing that it was lent. A call that answers writes the front of what it was lent and leaves the
 * rest as it was; only dropping fills the rest with zeros. An empty list may have any pointer, also a null one. A list that a call
 * writes must not overlap another list of that call: then nothing is promised.
 *
 * Lists. A gate is three words: its controls as a mask, a spare word that is 0, its target line. A fault in a list of words is
 * four: class, place, line, value. Lengths count words, bytes or records, as the pointer's type says. Words after the last whole
 * gate or fault are one more bad one, which is told if nothing before it is bad.
 *
 * Rules, with the place that is told:
 *    1  fewer bytes than a job's header                                         0
 *    2  a form that is not 1                                                    0
 *    3  no lines, or above 32                                                   0
 *    4  no class wanted, an unknown one, or a header word that is not 0         0
 *    5  above 1,024 gates or 2,048 vectors                                      0
 *    6  offsets or lengths that do not fit the counts                           0
 *    7  a bad gate                                                              its number, from 1
 *    8  a vector or a state that has a bit above the lines                      its number, from 1
 *    9  no fault of this circuit, or no class                                   its number, from 1
 *   10  not enough room                                                         0
 *   11  above 12 lines, where every input is tried                              0
 *   12  a level above the last                                                  0
 *   13  a multiple fault with no entry, with above 256, or with a site twice    0
 *   14  a text that is not of the form that is read                             its first faulty line, from 1
 *   15  a gate of a text that begins with a letter other than t                 its line, from 1
 * A vector, a state, a fault or a class that is asked alone has number 1. A place above 4,294,967,295 is told as that.
 */
#ifndef NUFSADEEM_H
#define NUFSADEEM_H

#include <stddef.h>
#include <stdint.h>

#ifdef __cplusplus
extern "C" {
#endif

/* Class 1: the line is stuck at the value, at the level `place`. Its sites are level 0 with any line, and level i with a line of
 * gate i, a control or the target. Classes 2, 3 and 4: the gate `place`, from 1, is missing, lacks the control `line`, or has the
 * control `line` too many. What a class has no use for is 0. */
typedef struct { uint32_t class_, place, line, value; } nuf_fault;

typedef struct { uint32_t number, place, state; } nuf_run;
typedef struct { uint32_t number, place, caught; } nuf_catch;          /* caught: 1 or 0 */
typedef struct { uint32_t number, place, vector; } nuf_vector;
typedef struct { uint32_t number, place, count; } nuf_count;
typedef struct { uint32_t number, place, lines, classes, gates, vectors; } nuf_job;
typedef struct { uint32_t number, place, lines, gates; } nuf_circuit;
typedef struct {
    uint32_t number, place, caught, total, complete;                   /* complete: 1 or 0 */
    nuf_fault first;                                                   /* the first uncaught fault; all 0 where complete */
} nuf_verdict;

/* The state at a level, from the input `state`. Level 0 is the input, and level i follows gate i.
 * Rules 3, 5, 7, 8 (the state), 12. Changes no memory. */
nuf_run nuf_forward(uint32_t lines, const uint32_t *gates, size_t gates_len, uint32_t level, uint32_t state);

/* The input that gives `state` at a level.
 * Rules 3, 5, 7, 8 (the state), 12. Changes no memory. */
nuf_run nuf_backward(uint32_t lines, const uint32_t *gates, size_t gates_len, uint32_t level, uint32_t state);

/* Whether a vector catches a fault: the output with the fault differs from the output without.
 * Rules 3, 5, 7, 8 (the vector), 9 (the fault). Changes no memory. */
nuf_catch nuf_catches(uint32_t lines, const uint32_t *gates, size_t gates_len, uint32_t vector, nuf_fault fault);

/* Whether a vector catches several stuck lines at once. The entries are faults of class 1, four words each.
 * Rules 3, 5, 7, 8 (the vector), 9 (the first bad entry, also past the 256th), 13. Changes no memory. */
nuf_catch nuf_catches_multiple(uint32_t lines, const uint32_t *gates, size_t gates_len, uint32_t vector,
                               const uint32_t *entries, size_t entries_len);

/* The verdict on a set of vectors for one class: how many of its faults some vector catches, how many it has, and the first that
 * no vector catches.
 * Rules 3, 5 (gates and vectors), 7, 8 (the first bad vector), 9 (the class). Changes no memory. */
nuf_verdict nuf_judge(uint32_t lines, const uint32_t *gates, size_t gates_len,
                      const uint32_t *vectors, size_t vectors_len, uint32_t class_);

/* The same verdict, worked out by a coverage that starts empty, is given the vectors in turn, and is then counted.
 * Rules 3, 5 (gates and vectors), 7, 8 (the first bad vector), 9 (the class). Changes no memory. */
nuf_verdict nuf_cover(uint32_t lines, const uint32_t *gates, size_t gates_len,
                      const uint32_t *vectors, size_t vectors_len, uint32_t class_);

/* A vector that catches the fault.
 * Rules 3, 5, 7, 9 (the fault). Changes no memory. */
nuf_vector nuf_test_for(uint32_t lines, const uint32_t *gates, size_t gates_len, nuf_fault fault);

/* A set that catches every stuck line: all zeros, all ones, and a vector for each gate.
 * Rules 3, 5, 7, 10. Room: as many words as gates and 2 more; all of these are written, and `count` is their number. */
nuf_count nuf_backward_set(uint32_t lines, const uint32_t *gates, size_t gates_len, uint32_t *room, size_t room_len);

/* A small set that catches every stuck line: each vector is the one that catches the most of what is left.
 * Rules 3, 5, 7, 11, 10. Room: 2 words more than the logarithm, to base 2 and rounded down, of the number of sites: the lines,
 * and for each gate its controls and 1. `count` is the number of vectors that were written, and may be less. */
nuf_count nuf_compact_set(uint32_t lines, const uint32_t *gates, size_t gates_len, uint32_t *room, size_t room_len);

/* Drops from a list of words the faults that a vector catches: the others go to the front in their order, zeros fill the rest, and
 * `count` is the number of faults that are left.
 * Rules 3, 5, 7, 8 (the vector), 9 (the first bad fault). Writes all of `list`. */
nuf_count nuf_drop(uint32_t lines, const uint32_t *gates, size_t gates_len, uint32_t vector,
                   uint32_t *list, size_t list_len);

/* The same of a list of records.
 * Rules 3, 5, 7, 8 (the vector), 9 (the first bad fault). Writes all of `list`. */
nuf_count nuf_drop_records(uint32_t lines, const uint32_t *gates, size_t gates_len, uint32_t vector,
                           nuf_fault *list, size_t list_len);

/* Reads a job: its gates to the front of `gates`, its vectors to the front of `vectors`, and its numbers into the answer.
 * Rules 1 to 8, then 10. Room: three words for each gate of the job, and one for each of its vectors. */
nuf_job nuf_read_job(const uint8_t *bytes, size_t bytes_len, uint32_t *gates, size_t gates_len,
                     uint32_t *vectors, size_t vectors_len);

/* Writes a job to the front of `out`; `count` is the number of bytes written.
 * Rules 3, 4, 5, 7, 8, 10. Room: 28 bytes, 12 for each gate and 4 for each vector. */
nuf_count nuf_write_job(uint32_t lines, uint32_t classes, const uint32_t *gates, size_t gates_len,
                        const uint32_t *vectors, size_t vectors_len, uint8_t *out, size_t out_len);

/* Writes the report on a job to the front of `out`; `count` is the number of bytes written. Any bytes have a report: that of a job
 * that breaks a rule is a line with the rule's number and place.
 * Rule 10. Room: the text's length, which is 100 bytes at most. */
nuf_count nuf_report(const uint8_t *bytes, size_t bytes_len, uint8_t *out, size_t out_len);

/* Reads a circuit from a text in the .real format: its gates to the front of `gates`, their number and that of its lines into the
 * answer. The text is ASCII. Its lines end with LF or CR LF, which the last may lack, and words are parted by spaces or tabs. Blank
 * lines and lines whose first word begins with # are skipped. The others are, in this order:
 *   .version, with any words
 *   .numvars, with the number of names
 *   .variables, with the names, all different, each of 1 to 8 letters, digits or underscores; the first is line 0
 *   each at most once and in any order: .inputs, .outputs, .garbage, with any words; .constants, with one word, a - for each name
 *   .begin
 *   the gates, `t3 a b c`: t and the number of names that follow; the last of them is the target, the others are controls
 *   .end
 * Numbers are decimal, with no zero in front.
 * Rules 15 and 14 (the first faulty line is told, 15 before 14 if both are broken there; where .end is missing, the line after the
 * last), 3, 5, 7 (a target among its controls), 10. Room: three words for each gate, which is 3,072 words at most. */
nuf_circuit nuf_import_real(const uint8_t *text, size_t text_len, uint32_t *gates, size_t gates_len);

/* Writes a circuit in the .real format to the front of `out`, its lines named x0, x1 and so on; `count` is the number of bytes
 * written. The text has no optional part, the controls of a gate in rising order, single spaces and LF; importing it gives the same
 * circuit.
 * Rules 3, 5, 7, 10. Room: the text's length, which is 125,094 bytes at most. */
nuf_count nuf_export_real(uint32_t lines, const uint32_t *gates, size_t gates_len, uint8_t *out, size_t out_len);

#ifdef __cplusplus
}
#endif

#endif
