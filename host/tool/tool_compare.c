/* The bench tool's comparison of two images: the first step at which two machines under the same calls differ. */
#include "tool.h"

#include <inttypes.h>
#include <string.h>

/* One of the two: its machine, the state before its last step, that step's answer and what stands behind its line. */
struct side {
    struct tool_machine machine;
    struct tool_order order;
    uint8_t before[IOP89_STATE_LENGTH];
    iop89_answer answer;
    unsigned number;
    char tail[64];
};

/* Prints what one did. */
static void print_side(const struct side *s)
{
    printf("%s: ", s->order.file[0].name);
    if (s->number == IOP89_DONE) {
        printf("%" PRIu32, s->machine.tried);
        tool_print_done(s->answer, s->before, s->machine.state, s->tail);
    } else {
        printf("number %u: %s\n", s->number, iop89_service_words(s->number));
    }
}

/* Makes the machine of one of the files. */
static void start(struct side *s, const struct tool_order *order, unsigned file)
{
    s->order = *order;
    s->order.files = 1;
    s->order.file[0] = order->file[file];
    s->number = tool_start(&s->machine, &s->order, true);
}

/* Gives the attentions of one of them that are due before its next step. */
static void give_due(struct side *s)
{
    memcpy(s->before, s->machine.state, sizeof s->before);
    s->number = tool_give_due(&s->machine, s->machine.tried + 1, true);
}

/* Tries one step of one of them. */
static void step(struct side *s)
{
    memcpy(s->before, s->machine.state, sizeof s->before);
    s->answer = tool_try_step(&s->machine, s->tail);
    s->number = IOP89_ANSWER_NUMBER(s->answer);
}

/* Whether both did the same: number, state and answer. */
static bool same(const struct side *a, const struct side *b)
{
    return a->number == b->number && memcmp(a->machine.state, b->machine.state, IOP89_STATE_LENGTH) == 0
           && (a->number != IOP89_DONE || IOP89_BITS(a->answer) == IOP89_BITS(b->answer));
}

/* A byte of memory, or -1 where none is lent. */
static int byte_at(const struct tool_memory *m, uint32_t place)
{
    uint32_t at = IOP89_PLACE_ADDRESS(place);
    if (at >= (IOP89_PLACE_IO(place) ? m->io_len : m->sys_len)) return -1;
    return (IOP89_PLACE_IO(place) ? m->io : m->sys)[at];
}

/* Whether a place has the same byte in both memories, or is lent in one at most. */
static bool same_byte(const struct side *a, const struct side *b, uint32_t place)
{
    int one = byte_at(&a->machine.memory, place), two = byte_at(&b->machine.memory, place);
    return one == two || one < 0 || two < 0;
}

/* The first place that the last call of one of them stored to, and that is not the same in both behind it. */
static uint32_t apart(const struct side *of, const struct side *a, const struct side *b)
{
    const struct card_bus *bus = &of->machine.bus;
    for (unsigned i = bus->reads; of->number == IOP89_DONE && i < bus->touched; i++)
        if (!same_byte(a, b, bus->place[i])) return bus->place[i];
    return IOP89_NO_PLACE;
}

/* Whether both did the same and stored the same bytes; says where they did not. */
static bool agree(const struct side *a, const struct side *b)
{
    uint32_t at = apart(a, a, b);
    if (at == IOP89_NO_PLACE) at = apart(b, a, b);
    if (same(a, b) && at == IOP89_NO_PLACE) return true;
    if (a->machine.tried == 0) puts("different before the first step");
    else printf("different at step %" PRIu32 "\n", a->machine.tried);
    if (at != IOP89_NO_PLACE)
        printf("stored at %05" PRIX32 "%s: %02X and %02X\n", IOP89_PLACE_ADDRESS(at), IOP89_PLACE_IO(at) ? "/io" : "",
               (unsigned)byte_at(&a->machine.memory, at), (unsigned)byte_at(&b->machine.memory, at));
    return false;
}

/* Prints how many bytes of a space differ and the first of them; answers whether some do. */
static bool print_bytes(const char *space, const uint8_t *a, size_t a_len, const uint8_t *b, size_t b_len)
{
    size_t length = a_len < b_len ? a_len : b_len, count = 0, first = 0;
    for (size_t i = length; i-- > 0;) {
        if (a[i] == b[i]) continue;
        count++;
        first = i;
    }
    if (a_len != b_len) printf("%s: %zu and %zu bytes\n", space, a_len, b_len);
    if (count > 0) printf("%s: %zu bytes differ, first %05zX: %02X and %02X\n", space, count, first, a[first], b[first]);
    return count > 0 || a_len != b_len;
}

/* Goes through both up to a step that differs, a number or the limit; answers whether one differs. */
static bool differ(struct side *a, struct side *b)
{
    bool equal = agree(a, b);
    while (equal && a->number == IOP89_DONE && a->machine.tried < a->order.limit) {
        give_due(a);
        give_due(b);
        if (a->number == IOP89_DONE && b->number == IOP89_DONE) step(a), step(b);
        equal = agree(a, b);
        bool waits = tool_goes_on(&a->order.of[0], a->number, a->machine.state);
        if (equal && waits) a->number = b->number = IOP89_DONE;
    }
    return !equal;
}

enum tool_status tool_compare(const struct tool_order *order)
{
    static struct side a, b;
    if (order->files != 2) tool_usage("compare takes two files", NULL);
    start(&a, order, 0);
    start(&b, order, 1);
    bool different = differ(&a, &b);
    if (different) print_side(&a), print_side(&b);
    else printf("the same %" PRIu32 " steps, then number %u: %s\n", a.machine.done, a.number, iop89_service_words(a.number));
    const struct tool_memory *m = &a.machine.memory, *n = &b.machine.memory;
    bool bytes = print_bytes("system memory", m->sys, m->sys_len, n->sys, n->sys_len);
    bytes = print_bytes("I/O memory", m->io, m->io_len, n->io, n->io_len) || bytes;
    tool_end(&a.machine);
    tool_end(&b.machine);
    return different || bytes ? TOOL_REFUSED : TOOL_DONE;
}
