/* Runs every call of the header on a stack of its own, and says how many bytes of it each one took, the most of all its runs.
 *
 * The stack is painted before a run, and the lowest byte that has changed tells how deep the run went. A figure goes from the stack
 * pointer at the call instruction down to that byte: the return address, all that the call writes below it, and what the C library's
 * memcpy and memset write there. The caller's frame and the arguments on the stack are not in it. Bytes at the very bottom that were
 * reserved and never written can't be seen: a figure may be a little too small, and never too large. */
#include "nufsadeem.h"
#include <stdio.h>
#include <stdlib.h>
#include <string.h>
#include <ucontext.h>

enum { GATES = 1024, VECTORS = 2048, FAULTS = 256, JOB = 20508, TEXT = 125094, STACK = 256 * 1024 };

/* What the calls are asked. Lists have room for one more than is allowed, and the text for names four times as long. */
static struct {
    uint32_t lines, level, state, gates[3 * (GATES + 1)], vectors[VECTORS + 1];
    nuf_fault fault, list[FAULTS + 1], sites[FAULTS + 1];
    uint8_t job[JOB], text[4 * TEXT];
    size_t gates_len, vectors_len, list_len, sites_len, job_len, text_len, words_room, vectors_room, bytes_room;
} in;

/* What a call answers and what it is lent; and the same after a run on the ordinary stack. */
static struct {
    union {
        nuf_run run; nuf_catch caught; nuf_vector vector; nuf_count count; nuf_job job; nuf_circuit circuit; nuf_verdict verdict;
    } answer;
    uint32_t words[3 * GATES], vectors[VECTORS];
    nuf_fault list[FAULTS + 1];
    uint8_t bytes[TEXT];
} out, due;

/* Stands in for a call, and notes the stack pointer at the call instruction: the return address and a saved register are below it, and
 * then this frame. It hands back its first argument, as a call does that writes a long answer to where this points. */
static unsigned char *at_call;
static int noting;

static __attribute__((noinline)) void *note(void *first)
{
    at_call = (unsigned char *)__builtin_frame_address(0) + 16;
    return first;
}

#define MAKE(call, kind, ...) \
    static void make_##call(void) { out.answer.kind = (noting ? (__typeof__(&call))(void (*)(void))note : call)(__VA_ARGS__); }
#define CIRCUIT in.lines, in.gates, in.gates_len

MAKE(nuf_forward, run, CIRCUIT, in.level, in.state)
MAKE(nuf_backward, run, CIRCUIT, in.level, in.state)
MAKE(nuf_catches, caught, CIRCUIT, in.state, in.fault)
MAKE(nuf_catches_multiple, caught, CIRCUIT, in.state, &in.sites[0].class_, 4 * in.sites_len)
MAKE(nuf_judge, verdict, CIRCUIT, in.vectors, in.vectors_len, in.fault.class_)
MAKE(nuf_cover, verdict, CIRCUIT, in.vectors, in.vectors_len, in.fault.class_)
MAKE(nuf_test_for, vector, CIRCUIT, in.fault)
MAKE(nuf_backward_set, count, CIRCUIT, out.words, in.words_room)
MAKE(nuf_compact_set, count, CIRCUIT, out.words, in.words_room)
MAKE(nuf_drop, count, CIRCUIT, in.state, &out.list[0].class_, 4 * in.list_len)
MAKE(nuf_drop_records, count, CIRCUIT, in.state, out.list, in.list_len)
MAKE(nuf_read_job, job, in.job, in.job_len, out.words, in.words_room, out.vectors, in.vectors_room)
MAKE(nuf_write_job, count, in.lines, 15, in.gates, in.gates_len, in.vectors, in.vectors_len, out.bytes, in.bytes_room)
MAKE(nuf_report, count, in.job, in.job_len, out.bytes, in.bytes_room)
MAKE(nuf_import_real, circuit, in.text, in.text_len, out.words, in.words_room)
MAKE(nuf_export_real, count, CIRCUIT, out.bytes, in.bytes_room)

#define CALL(call) {#call, make_##call, 0}
static struct { const char *name; void (*make)(void); size_t most; } calls[] = {
    CALL(nuf_forward), CALL(nuf_backward), CALL(nuf_catches), CALL(nuf_catches_multiple), CALL(nuf_judge), CALL(nuf_cover),
    CALL(nuf_test_for), CALL(nuf_backward_set), CALL(nuf_compact_set), CALL(nuf_drop), CALL(nuf_drop_records), CALL(nuf_read_job),
    CALL(nuf_write_job), CALL(nuf_report), CALL(nuf_import_real), CALL(nuf_export_real),
};
enum { CALLS = sizeof calls / sizeof calls[0] };

static unsigned char stack[STACK];
static ucontext_t outside, inside;
static void (*to_make)(void);

/* The space keeps a call below all that the C library writes when the stack is left. */
static void on_the_stack(void)
{
    volatile char space[1024];
    space[0] = 0;
    to_make();
    (void)space[0];
}

static void lend(void)
{
    memset(&out, 0x77, sizeof out);
    memcpy(out.list, in.list, sizeof out.list);
}

/* Makes a call on the painted stack. Gives the lowest byte that has changed. */
static unsigned char *lowest(void (*make)(void), unsigned char paint)
{
    lend();
    memset(stack, paint, STACK);
    getcontext(&inside);
    inside.uc_stack.ss_sp = stack;
    inside.uc_stack.ss_size = STACK;
    inside.uc_link = &outside;
    to_make = make;
    makecontext(&inside, on_the_stack, 0);
    swapcontext(&outside, &inside);
    unsigned char *low = stack;
    while (low < stack + STACK && *low == paint)
        low++;
    return low;
}

/* Makes every call with what is asked now. Each has a run with either paint, since a byte may be written as it was painted. */
static void measure(void)
{
    static const unsigned char paints[2] = {0xA5, 0x5A};
    for (int i = 0; i < CALLS; i++) {
        lend();
        calls[i].make();
        due = out;
        noting = 1;
        lowest(calls[i].make, 0);
        noting = 0;
        for (int paint = 0; paint < 2; paint++) {
            unsigned char *low = lowest(calls[i].make, paints[paint]);
            if (low == stack || memcmp(&out, &due, sizeof out) != 0) {
                printf("host: %s %s\n", calls[i].name, low == stack ? "needs a larger stack" : "answers otherwise on the painted stack");
                exit(1);
            }
            if ((size_t)(at_call - low) > calls[i].most)
                calls[i].most = at_call - low;
        }
    }
}

static uint32_t ones(uint32_t lines)
{
    return lines < 32 ? (1u << lines) - 1 : UINT32_MAX;
}

static void set_gate(uint32_t at, uint32_t controls, uint32_t target)
{
    in.gates[3 * at] = controls & ~(1u << target);
    in.gates[3 * at + 1] = 0;
    in.gates[3 * at + 2] = target;
}

/* From gate to gate the target goes on by `step` lines. */
static void set_circuit(uint32_t lines, uint32_t gates, uint32_t controls, uint32_t step)
{
    in.lines = lines;
    in.gates_len = 3 * gates;
    for (uint32_t at = 0; at < gates; at++)
        set_gate(at, controls & ones(lines), (lines - 1 + at * step) % lines);
}

static void add_fault(uint32_t class_, uint32_t place, uint32_t line, uint32_t value)
{
    nuf_fault fault = {class_, place, line, value};
    if (in.list_len < FAULTS)
        in.list[in.list_len++] = fault;
    if (class_ == 1 && in.sites_len < FAULTS)
        in.sites[in.sites_len++] = fault;
}

/* As many faults as there is room for, from the last gate on. */
static void ask_faults(void)
{
    in.list_len = in.sites_len = 0;
    add_fault(1, 0, 0, 1);
    for (uint32_t gate = in.gates_len / 3; gate > 0; gate--)
        for (uint32_t line = 0; line < in.lines; line++) {
            int target = line == in.gates[3 * gate - 1], control = in.gates[3 * gate - 3] >> line & 1;
            add_fault(target ? 2 : control ? 3 : 4, gate, target ? 0 : line, 0);
            if (target || control)
                add_fault(1, gate, line, line % 2);
        }
}

#define PUT(...) (in.text_len += sprintf((char *)in.text + in.text_len, __VA_ARGS__))

static void put_names(uint32_t mask)
{
    for (uint32_t line = 0; line < 32; line++)
        if (mask >> line & 1)
            PUT(" Name_%03u", line);
}

/* The circuit with the longest names and with every part that may be left out. */
static void ask_text(void)
{
    in.text_len = 0;
    PUT("# comment\r\n.version 2.0\r\n.numvars %u\r\n.variables", in.lines);
    put_names(ones(in.lines));
    PUT("\r\n.inputs a\r\n.outputs b\r\n.garbage -\r\n.constants %.*s\r\n.begin\r\n", (int)in.lines, "--------------------------------");
    for (uint32_t *gate = in.gates; gate < in.gates + in.gates_len; gate += 3) {
        PUT("t%d", 1 + __builtin_popcount(gate[0]));
        put_names(gate[0]);
        put_names(1u << gate[2]);
        PUT("\r\n");
    }
    PUT(".end");
}

/* A name more than a circuit may have lines: such names are compared one by one. */
static void ask_more_names(void)
{
    in.text_len = 0;
    PUT(".version 2.0\n.numvars 33\n.variables");
    for (uint32_t line = 0; line < 33; line++)
        PUT(" Name_%03u", line);
    PUT("\n.begin\nt2 Name_031 Name_032\n.end\n");
}

/* Asks all that can be asked about the circuit, and about the last fault of the class. */
static void ask(uint32_t class_)
{
    in.level = in.gates_len / 3;
    in.state = ones(in.lines);
    in.vectors_len = VECTORS;
    for (uint32_t i = 0; i < VECTORS; i++)
        in.vectors[i] = ones(in.lines) & ~(i < 29 ? 1u << i : i == 29 ? 3u << 29 : i == 30 ? 1u << 31 | 3 : 0);
    in.words_room = 3 * GATES;
    in.vectors_room = VECTORS;
    in.bytes_room = TEXT;
    in.job_len = nuf_write_job(in.lines, 15, in.gates, in.gates_len, in.vectors, in.vectors_len, in.job, JOB).count;
    ask_text();
    ask_faults();
    in.fault = (nuf_fault){class_, 0, 0, 0};
    for (size_t i = 0; i < in.list_len; i++)
        if (in.list[i].class_ == class_)
            in.fault = in.list[i];
}

/* Breaks rules, for a call no more than one at a time, so that each of them comes to be told; 11 is told of circuits above. */
enum { WAYS = 8 };
static void spoil(int way)
{
    switch (way) {
    case 0: in.lines = 33, in.job_len = in.text_len = 0; break;
    case 1: in.gates_len = 3 * (GATES + 1), in.job[0] = 0, in.text[in.text_len - 1] = 0x80; break;
    case 2: in.gates_len--, in.job[in.job_len - 1] = 0x80, in.text_len--; break;
    case 3: in.gates[in.gates_len - 1] = 32, in.job[in.job_len - 4 * VECTORS - 1] = 1, *strrchr((char *)in.text, 't') = 'v'; break;
    case 4: in.vectors[VECTORS - 1] = in.state = UINT32_MAX, in.job[6] = 1; break;
    case 5: in.job[16]++, in.level++, in.vectors_len++, in.sites_len = 0, in.list[in.list_len - 1].line = 32; break;
    case 6: in.fault.class_ = 5, in.sites[in.sites_len - 1].line = 32, in.words_room = in.vectors_room = in.bytes_room = 0; break;
    case 7: in.sites[in.sites_len++] = in.sites[0]; break;
    }
}

int main(void)
{
    /* the job with the longest report: gate 1,000 never inverts, and line 30 is 0 after gate 1,002 */
    set_circuit(32, GATES, 0x7FFF, 0);
    set_gate(999, 1u << 31 | 0x7FFF, 30);
    set_gate(1000, 1u << 31 | 1 << 15, 28);
    set_gate(1001, 1 << 29, 30);
    for (uint32_t class_ = 1; class_ <= 4; class_++) {
        ask(class_);
        measure();
    }
    set_circuit(32, GATES, UINT32_MAX, 1);
    ask(1);
    measure();
    set_circuit(12, GATES, 0x5A5, 1);
    ask(1);
    measure();
    ask_more_names();
    measure();
    for (int way = 0; way < WAYS; way++) {
        set_circuit(31, 20, 0x12345678, 7);
        ask(1 + way % 4);
        spoil(way);
        measure();
    }
    for (int i = 0; i < CALLS; i++)
        printf("%s %zu\n", calls[i].name, calls[i].most);
    return 0;
}
