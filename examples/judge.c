/* Reads a job from standard input, adds to its set a test for each fault that escapes, class by class, and prints the report
 * on the job with that set.
 *
 *   cc -std=c11 -Iinclude -o judge examples/judge.c target/staticlib/libnufsadeem.a
 *   ./judge < my.job
 */
#include "nufsadeem.h"
#include <stdio.h>
#include <stdlib.h>

enum { LONGEST_JOB = 20508, MOST_GATES = 1024, MOST_VECTORS = 2048, LONGEST_REPORT = 100 };

/* One byte and one vector more than a job can have: an input or a set that grows too long is then refused by the library. */
static uint8_t bytes[LONGEST_JOB + 1], text[LONGEST_REPORT];
static uint32_t gates[3 * MOST_GATES], vectors[MOST_VECTORS + 1];

/* Ends the program where a call refused. */
static void stop_if_refused(const char *call, uint32_t number, uint32_t place)
{
    if (number == 0)
        return;
    fprintf(stderr, "%s: refused with %u at place %u\n", call, number, place);
    exit(1);
}

static void print_fault(nuf_fault fault)
{
    switch (fault.class_) {
    case 1: printf("line %u stuck at %u at level %u", fault.line, fault.value, fault.place); break;
    case 2: printf("gate %u missing", fault.place); break;
    case 3: printf("gate %u without control %u", fault.place, fault.line); break;
    case 4: printf("gate %u with extra control %u", fault.place, fault.line); break;
    }
}

int main(void)
{
    size_t length = fread(bytes, 1, sizeof bytes, stdin);
    nuf_job job = nuf_read_job(bytes, length, gates, 3 * MOST_GATES, vectors, MOST_VECTORS);
    stop_if_refused("nuf_read_job", job.number, job.place);
    size_t words = 3 * (size_t)job.gates, size = job.vectors;

    for (uint32_t class_ = 1; class_ <= 4; class_++) {
        if ((job.classes >> (class_ - 1) & 1) == 0)
            continue;
        for (;;) {
            nuf_verdict verdict = nuf_judge(job.lines, gates, words, vectors, size, class_);
            stop_if_refused("nuf_judge", verdict.number, verdict.place);
            if (verdict.complete)
                break;
            nuf_vector test = nuf_test_for(job.lines, gates, words, verdict.first);
            stop_if_refused("nuf_test_for", test.number, test.place);
            print_fault(verdict.first);
            printf(" escapes; vector %u catches it\n", test.vector);
            vectors[size++] = test.vector;
        }
    }

    nuf_count written = nuf_write_job(job.lines, job.classes, gates, words, vectors, size, bytes, sizeof bytes);
    stop_if_refused("nuf_write_job", written.number, written.place);
    nuf_count report = nuf_report(bytes, written.count, text, sizeof text);
    stop_if_refused("nuf_report", report.number, report.place);
    fwrite(text, 1, report.count, stdout);
    return 0;
}
