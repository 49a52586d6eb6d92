/* Holds the archive against the header: every field of every struct at its place and in its width, and every parameter in its order.
 *
 * The arguments of a call all differ, and it is made again with any two exchanged that C would let pass; each time another answer is
 * due. An answer has its fields checked by name, once in a refusal, whose number and place differ, and otherwise with fields that do. */
#include "nufsadeem.h"
#include <stdio.h>
#include <string.h>

#define FIELD(type, field, at, width) \
    _Static_assert(offsetof(type, field) == (at) && sizeof(((type *)0)->field) == (width), #type " " #field)
#define SIZE(type, size) _Static_assert(sizeof(type) == (size), #type)

FIELD(nuf_fault, class_, 0, 4);
FIELD(nuf_fault, place, 4, 4);
FIELD(nuf_fault, line, 8, 4);
FIELD(nuf_fault, value, 12, 4);
SIZE(nuf_fault, 16);

FIELD(nuf_run, number, 0, 4);
FIELD(nuf_run, place, 4, 4);
FIELD(nuf_run, state, 8, 4);
SIZE(nuf_run, 12);

FIELD(nuf_catch, number, 0, 4);
FIELD(nuf_catch, place, 4, 4);
FIELD(nuf_catch, caught, 8, 4);
SIZE(nuf_catch, 12);

FIELD(nuf_vector, number, 0, 4);
FIELD(nuf_vector, place, 4, 4);
FIELD(nuf_vector, vector, 8, 4);
SIZE(nuf_vector, 12);

FIELD(nuf_count, number, 0, 4);
FIELD(nuf_count, place, 4, 4);
FIELD(nuf_count, count, 8, 4);
SIZE(nuf_count, 12);

FIELD(nuf_job, number, 0, 4);
FIELD(nuf_job, place, 4, 4);
FIELD(nuf_job, lines, 8, 4);
FIELD(nuf_job, classes, 12, 4);
FIELD(nuf_job, gates, 16, 4);
FIELD(nuf_job, vectors, 20, 4);
SIZE(nuf_job, 24);

FIELD(nuf_circuit, number, 0, 4);
FIELD(nuf_circuit, place, 4, 4);
FIELD(nuf_circuit, lines, 8, 4);
FIELD(nuf_circuit, gates, 12, 4);
SIZE(nuf_circuit, 16);

FIELD(nuf_verdict, number, 0, 4);
FIELD(nuf_verdict, place, 4, 4);
FIELD(nuf_verdict, caught, 8, 4);
FIELD(nuf_verdict, total, 12, 4);
FIELD(nuf_verdict, complete, 16, 4);
FIELD(nuf_verdict, first, 20, 16);
SIZE(nuf_verdict, 36);

static unsigned held, broken;

static void is(const char *what, const char *field, uint32_t told, uint32_t due)
{
    held += told == due;
    if (told != due) {
        broken++;
        printf("%s: %s is %u, and should be %u\n", what, field, told, due);
    }
}

static void holds(const char *what, const void *memory, const void *due, size_t size)
{
    is(what, "the lent memory", memcmp(memory, due, size) == 0, 1);
}

/* A call, and what each field of its answer should be. */
#define RUN(call, n, p, s) do { \
    nuf_run a = call; \
    is(#call, "number", a.number, n), is(#call, "place", a.place, p), is(#call, "state", a.state, s); \
} while (0)
#define CATCH(call, n, p, c) do { \
    nuf_catch a = call; \
    is(#call, "number", a.number, n), is(#call, "place", a.place, p), is(#call, "caught", a.caught, c); \
} while (0)
#define VECTOR(call, n, p, v) do { \
    nuf_vector a = call; \
    is(#call, "number", a.number, n), is(#call, "place", a.place, p), is(#call, "vector", a.vector, v); \
} while (0)
#define COUNT(call, n, p, c) do { \
    nuf_count a = call; \
    is(#call, "number", a.number, n), is(#call, "place", a.place, p), is(#call, "count", a.count, c); \
} while (0)
#define JOB(call, n, p, l, c, g, v) do { \
    nuf_job a = call; \
    is(#call, "number", a.number, n), is(#call, "place", a.place, p), is(#call, "lines", a.lines, l); \
    is(#call, "classes", a.classes, c), is(#call, "gates", a.gates, g), is(#call, "vectors", a.vectors, v); \
} while (0)
#define CIRCUIT(call, n, p, l, g) do { \
    nuf_circuit a = call; \
    is(#call, "number", a.number, n), is(#call, "place", a.place, p); \
    is(#call, "lines", a.lines, l), is(#call, "gates", a.gates, g); \
} while (0)
#define VERDICT(call, n, p, c, t, all, class, at, l, v) do { \
    nuf_verdict a = call; \
    is(#call, "number", a.number, n), is(#call, "place", a.place, p), is(#call, "caught", a.caught, c); \
    is(#call, "total", a.total, t), is(#call, "complete", a.complete, all); \
    is(#call, "first.class_", a.first.class_, class), is(#call, "first.place", a.first.place, at); \
    is(#call, "first.line", a.first.line, l), is(#call, "first.value", a.first.value, v); \
} while (0)

/* Five lines. Controls 0 and 1 invert line 2, control 2 inverts line 4, and nothing controls line 3. */
static const uint32_t gates[9] = {3, 0, 2, 4, 0, 4, 0, 0, 3};
static const uint32_t third_bad[9] = {3, 0, 2, 4, 0, 4, 0, 0, 5};
/* Line 4 is 0 at level 2 each time, and nothing else is left. */
static const uint32_t vectors[4] = {0, 27, 20, 0};
static const uint32_t all_caught[5] = {0, 31, 27, 20, 4};

static const uint8_t image[80] = {
    1, 0, 5, 0, 9, 0, 0, 0, 3, 0, 0, 0, 4, 0, 0, 0, 28, 0, 0, 0, 64, 0, 0, 0, 80, 0, 0, 0,
    3, 0, 0, 0, 0, 0, 0, 0, 2, 0, 0, 0, 4, 0, 0, 0, 0, 0, 0, 0, 4, 0, 0, 0, 0, 0, 0, 0, 0, 0, 0, 0, 3, 0, 0, 0,
    0, 0, 0, 0, 27, 0, 0, 0, 20, 0, 0, 0, 0, 0, 0, 0,
};

static nuf_fault fault(uint32_t class_, uint32_t place, uint32_t line, uint32_t value)
{
    nuf_fault made;
    made.class_ = class_;
    made.place = place;
    made.line = line;
    made.value = value;
    return made;
}

static void runs(void)
{
    RUN(nuf_forward(5, gates, 9, 2, 19), 0, 0, 7);
    RUN(nuf_forward(2, gates, 9, 5, 19), 7, 1, 0);
    RUN(nuf_forward(19, gates, 9, 2, 5), 0, 0, 21);
    RUN(nuf_forward(5, gates, 9, 19, 2), 12, 0, 0);
    RUN(nuf_forward(5, third_bad, 9, 2, 19), 7, 3, 0);

    RUN(nuf_backward(5, gates, 9, 2, 7), 0, 0, 19);
    RUN(nuf_backward(2, gates, 9, 5, 7), 7, 1, 0);
    RUN(nuf_backward(7, gates, 9, 2, 5), 0, 0, 21);
    RUN(nuf_backward(5, gates, 9, 7, 2), 12, 0, 0);
    RUN(nuf_backward(5, third_bad, 9, 2, 7), 7, 3, 0);
}

static void catching(void)
{
    CATCH(nuf_catches(5, gates, 9, 3, fault(1, 2, 4, 0)), 0, 0, 1);
    CATCH(nuf_catches(3, gates, 9, 5, fault(1, 2, 4, 0)), 7, 2, 0);
    CATCH(nuf_catches(5, gates, 9, 3, fault(2, 1, 4, 0)), 9, 1, 0);
    CATCH(nuf_catches(5, gates, 9, 3, fault(4, 2, 1, 0)), 0, 0, 0);
    CATCH(nuf_catches(5, gates, 9, 3, fault(0, 2, 4, 1)), 9, 1, 0);
    CATCH(nuf_catches(5, gates, 9, 3, fault(1, 4, 2, 0)), 9, 1, 0);
    CATCH(nuf_catches(5, gates, 9, 3, fault(1, 0, 4, 2)), 9, 1, 0);
    CATCH(nuf_catches(5, gates, 9, 3, fault(1, 2, 0, 4)), 9, 1, 0);
    CATCH(nuf_catches(5, third_bad, 9, 3, fault(1, 2, 4, 0)), 7, 3, 0);

    static const uint32_t entries[8] = {1, 2, 4, 0, 1, 0, 3, 1};
    CATCH(nuf_catches_multiple(5, gates, 9, 3, entries, 8), 0, 0, 1);
    CATCH(nuf_catches_multiple(3, gates, 9, 5, entries, 8), 7, 2, 0);
    CATCH(nuf_catches_multiple(5, entries, 8, 3, gates, 9), 7, 1, 0);
    CATCH(nuf_catches_multiple(5, third_bad, 9, 3, entries, 8), 7, 3, 0);

    VECTOR(nuf_test_for(5, gates, 9, fault(1, 2, 4, 0)), 0, 0, 11);
    VECTOR(nuf_test_for(5, gates, 9, fault(2, 1, 4, 0)), 9, 1, 0);
    VECTOR(nuf_test_for(5, gates, 9, fault(4, 2, 1, 0)), 0, 0, 29);
    VECTOR(nuf_test_for(5, gates, 9, fault(0, 2, 4, 1)), 9, 1, 0);
    VECTOR(nuf_test_for(5, gates, 9, fault(1, 4, 2, 0)), 9, 1, 0);
    VECTOR(nuf_test_for(5, gates, 9, fault(1, 0, 4, 2)), 9, 1, 0);
    VECTOR(nuf_test_for(5, gates, 9, fault(1, 2, 0, 4)), 9, 1, 0);
    VECTOR(nuf_test_for(5, third_bad, 9, fault(1, 2, 4, 0)), 7, 3, 0);
}

static void judging(void)
{
    VERDICT(nuf_judge(5, gates, 9, vectors, 4, 1), 0, 0, 21, 22, 0, 1, 2, 4, 0);
    VERDICT(nuf_judge(1, gates, 9, vectors, 4, 5), 7, 1, 0, 0, 0, 0, 0, 0, 0);
    VERDICT(nuf_judge(5, vectors, 4, gates, 9, 1), 7, 1, 0, 0, 0, 0, 0, 0, 0);
    VERDICT(nuf_judge(5, third_bad, 9, vectors, 4, 1), 7, 3, 0, 0, 0, 0, 0, 0, 0);
    VERDICT(nuf_judge(5, gates, 9, all_caught, 5, 1), 0, 0, 22, 22, 1, 0, 0, 0, 0);

    VERDICT(nuf_cover(5, gates, 9, vectors, 4, 1), 0, 0, 21, 22, 0, 1, 2, 4, 0);
    VERDICT(nuf_cover(1, gates, 9, vectors, 4, 5), 7, 1, 0, 0, 0, 0, 0, 0, 0);
    VERDICT(nuf_cover(5, vectors, 4, gates, 9, 1), 7, 1, 0, 0, 0, 0, 0, 0, 0);
    VERDICT(nuf_cover(5, third_bad, 9, vectors, 4, 1), 7, 3, 0, 0, 0, 0, 0, 0, 0);
    VERDICT(nuf_cover(5, gates, 9, all_caught, 5, 1), 0, 0, 22, 22, 1, 0, 0, 0, 0);
}

static void sets(void)
{
    uint32_t room[8] = {91, 92, 93, 94, 95, 96, 97, 98};
    static const uint32_t kept[8] = {91, 92, 93, 94, 95, 96, 97, 98};
    COUNT(nuf_backward_set(5, third_bad, 9, room, 8), 7, 3, 0);
    COUNT(nuf_compact_set(5, third_bad, 9, room, 8), 7, 3, 0);
    COUNT(nuf_backward_set(5, kept, 8, room, 8), 7, 1, 0);
    COUNT(nuf_compact_set(5, kept, 8, room, 8), 7, 1, 0);
    holds("a set that is refused", room, kept, sizeof room);
    static const uint32_t backward[8] = {0, 31, 27, 11, 11, 96, 97, 98};
    COUNT(nuf_backward_set(5, gates, 9, room, 8), 0, 0, 5);
    holds("nuf_backward_set", room, backward, sizeof room);
    static const uint32_t compact[8] = {0, 11, 20, 11, 11, 96, 97, 98};
    COUNT(nuf_compact_set(5, gates, 9, room, 8), 0, 0, 3);
    holds("nuf_compact_set", room, compact, sizeof room);
}

static void dropping(void)
{
    uint32_t list[12] = {1, 2, 4, 0, 4, 3, 2, 0, 4, 1, 3, 0};
    nuf_fault records[3] = {fault(1, 2, 4, 0), fault(4, 3, 2, 0), fault(4, 1, 3, 0)};
    COUNT(nuf_drop(5, third_bad, 9, 4, list, 12), 7, 3, 0);
    COUNT(nuf_drop_records(5, third_bad, 9, 4, records, 3), 7, 3, 0);
    COUNT(nuf_drop(4, gates, 9, 5, list, 12), 7, 2, 0);
    COUNT(nuf_drop_records(4, gates, 9, 5, records, 3), 7, 2, 0);
    static const uint32_t left[12] = {4, 3, 2, 0, 4, 1, 3, 0, 0, 0, 0, 0};
    COUNT(nuf_drop(5, gates, 9, 4, list, 12), 0, 0, 2);
    holds("nuf_drop", list, left, sizeof list);
    COUNT(nuf_drop_records(5, gates, 9, 4, records, 3), 0, 0, 2);
    holds("nuf_drop_records", records, left, sizeof records);
}

static void jobs(void)
{
    uint32_t words[12] = {0}, states[6] = {0};
    uint8_t third_gate_bad[80], out[96] = {0};
    memcpy(third_gate_bad, image, 80);
    third_gate_bad[60] = 5;
    JOB(nuf_read_job(third_gate_bad, 80, words, 12, states, 6), 7, 3, 0, 0, 0, 0);
    JOB(nuf_read_job(image, 80, states, 6, words, 12), 10, 0, 0, 0, 0, 0);
    JOB(nuf_read_job(image, 80, words, 12, states, 6), 0, 0, 5, 9, 3, 4);
    holds("the gates of nuf_read_job", words, gates, sizeof gates);
    holds("the vectors of nuf_read_job", states, vectors, sizeof vectors);

    COUNT(nuf_write_job(5, 9, third_bad, 9, vectors, 4, out, 96), 7, 3, 0);
    COUNT(nuf_write_job(5, 9, vectors, 4, gates, 9, out, 96), 7, 1, 0);
    COUNT(nuf_write_job(5, 9, gates, 9, vectors, 4, out, 96), 0, 0, 80);
    holds("nuf_write_job", out, image, sizeof image);
    COUNT(nuf_write_job(9, 5, gates, 9, vectors, 4, out, 96), 0, 0, 80);
    is("nuf_write_job(9, 5, ..)", "the byte of the lines", out[2], 9);
    is("nuf_write_job(9, 5, ..)", "the byte of the classes", out[4], 5);

    static const char text[] = "J 5 3 4\nS 21 22 2 4 0\nX 7 9 1 3\n";
    COUNT(nuf_report(image, 80, out, 5), 10, 0, 0);
    COUNT(nuf_report(image, 80, out, 96), 0, 0, sizeof text - 1);
    holds("nuf_report", out, text, sizeof text - 1);
}

static void texts(void)
{
    static const uint8_t text[] = ".version 1.0\n.numvars 5\n.variables x0 x1 x2 x3 x4\n.begin\nt3 x0 x1 x2\nt2 x2 x4\nt1 x3\n.end\n";
    enum { LENGTH = sizeof text - 1, ROOM = 96 };
    uint8_t third_gate_bad[LENGTH], out[ROOM] = {0};
    uint32_t words[ROOM] = {0};
    memcpy(third_gate_bad, text, LENGTH);
    third_gate_bad[LENGTH - 10] = '9';
    CIRCUIT(nuf_import_real(third_gate_bad, LENGTH, words, 9), 14, 7, 0, 0);
    CIRCUIT(nuf_import_real(text, 9, words, LENGTH), 14, 2, 0, 0);
    CIRCUIT(nuf_import_real(text, LENGTH, words, 9), 0, 0, 5, 3);
    holds("nuf_import_real", words, gates, sizeof gates);

    /* `words` goes on with gates that have no controls and target 0 */
    COUNT(nuf_export_real(5, third_bad, 9, out, ROOM), 7, 3, 0);
    COUNT(nuf_export_real(9, words, 5, out, ROOM), 7, 2, 0);
    COUNT(nuf_export_real(ROOM, words, 9, out, 5), 3, 0, 0);
    COUNT(nuf_export_real(5, words, ROOM, out, 9), 10, 0, 0);
    COUNT(nuf_export_real(5, words, 9, out, ROOM), 0, 0, LENGTH);
    holds("nuf_export_real", out, text, LENGTH);
}

int main(void)
{
    runs();
    catching();
    judging();
    sets();
    dropping();
    jobs();
    texts();
    if (broken) {
        printf("host: %u fields and lists are not what the header makes them\n", broken);
        return 1;
    }
    printf("host: every field and parameter is where the header has it: %u held\n", held);
    return 0;
}
