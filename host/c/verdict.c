/* Reads the sample job from its image, judges its set for stuck-at faults and says what came of it. */
#include "nufsadeem.h"
#include <stdio.h>

enum { STUCK_AT = 1, MOST_GATES = 8, MOST_VECTORS = 8 };

static const uint8_t sample[64] = {
    0x01, 0x00, 0x03, 0x00, 0x0F, 0x00, 0x00, 0x00, 0x02, 0x00, 0x00, 0x00, 0x03, 0x00, 0x00, 0x00,
    0x1C, 0x00, 0x00, 0x00, 0x34, 0x00, 0x00, 0x00, 0x40, 0x00, 0x00, 0x00, 0x03, 0x00, 0x00, 0x00,
    0x00, 0x00, 0x00, 0x00, 0x02, 0x00, 0x00, 0x00, 0x01, 0x00, 0x00, 0x00, 0x00, 0x00, 0x00, 0x00,
    0x01, 0x00, 0x00, 0x00, 0x00, 0x00, 0x00, 0x00, 0x03, 0x00, 0x00, 0x00, 0x05, 0x00, 0x00, 0x00,
};

static int refused(uint32_t number, uint32_t place)
{
    if (number != 0)
        printf("refused with %u at place %u\n", number, place);
    return number != 0;
}

static void say(const char *set, nuf_verdict verdict)
{
    printf("%s: %u of %u stuck-at faults caught, ", set, verdict.caught, verdict.total);
    if (verdict.complete)
        printf("the set is complete\n");
    else
        printf("first uncaught: line %u stuck at %u at level %u\n", verdict.first.line,
               verdict.first.value, verdict.first.place);
}

int main(void)
{
    uint32_t gates[3 * MOST_GATES], vectors[MOST_VECTORS];
    nuf_job job = nuf_read_job(sample, sizeof sample, gates, 3 * MOST_GATES, vectors, MOST_VECTORS);
    if (refused(job.number, job.place))
        return 1;
    printf("the job has %u lines, %u gates and %u vectors\n", job.lines, job.gates, job.vectors);

    size_t words = 3 * (size_t)job.gates;
    nuf_verdict whole = nuf_judge(job.lines, gates, words, vectors, job.vectors, STUCK_AT);
    if (refused(whole.number, whole.place))
        return 1;
    say("all vectors", whole);

    nuf_verdict part = nuf_judge(job.lines, gates, words, vectors, job.vectors - 1, STUCK_AT);
    if (refused(part.number, part.place))
        return 1;
    say("all but the last", part);
    return 0;
}
