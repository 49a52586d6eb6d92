/* Reads a circuit in the .real format from standard input, and writes a job to standard output: the circuit, a set that catches
 * every stuck line, and all four classes.
 *
 *   cc -std=c11 -Iinclude -o real_to_job examples/real_to_job.c target/staticlib/libnufsadeem.a
 *   ./real_to_job < my.real > my.job
 */
#include "nufsadeem.h"
#include <stdio.h>
#include <stdlib.h>

enum { LONGEST_TEXT = 1000000, LONGEST_JOB = 20508, MOST_GATES = 1024, ALL_CLASSES = 15 };

static uint8_t text[LONGEST_TEXT + 1], job[LONGEST_JOB];
static uint32_t gates[3 * MOST_GATES], vectors[MOST_GATES + 2];

/* Ends the program where a call refused. */
static void stop_if_refused(const char *call, uint32_t number, uint32_t place)
{
    if (number == 0)
        return;
    const char *kind = number == 14 || number == 15 ? "line" : "place";
    fprintf(stderr, "%s: refused with %u at %s %u\n", call, number, kind, place);
    exit(1);
}

int main(void)
{
    size_t length = fread(text, 1, sizeof text, stdin);
    if (length > LONGEST_TEXT) {
        fprintf(stderr, "the text has more than %d bytes\n", LONGEST_TEXT);
        return 1;
    }
    nuf_circuit circuit = nuf_import_real(text, length, gates, 3 * MOST_GATES);
    stop_if_refused("nuf_import_real", circuit.number, circuit.place);
    size_t words = 3 * (size_t)circuit.gates;

    nuf_count set = nuf_backward_set(circuit.lines, gates, words, vectors, MOST_GATES + 2);
    stop_if_refused("nuf_backward_set", set.number, set.place);
    nuf_count written = nuf_write_job(circuit.lines, ALL_CLASSES, gates, words, vectors, set.count, job, sizeof job);
    stop_if_refused("nuf_write_job", written.number, written.place);
    fwrite(job, 1, written.count, stdout);
    return 0;
}
