/* One call on its way: expanded over a window, made into table rows, checked, read back; then the same rows with one number changed. */
#include "minjolf.h"
#include <inttypes.h>
#include <stdio.h>

#define GAP 8
#define CELLS 32
#define OPS 4
#define ROWS 4

static void say(const char *step, minjolf_answer answer)
{
    if (answer.number == 0)
        printf("%s: %" PRIu64 "\n", step, answer.value);
    else
        printf("%s: refused with %" PRIu64 " at %" PRIu64 ", value %" PRIu64 "\n", step, answer.number, answer.place, answer.value);
}

int main(void)
{
    uint8_t bytes[CELLS] = "pattern";
    uint64_t stamps[CELLS] = {0};
    uint64_t ops[OPS * MINJOLF_OP_WIDTH] = {0};
    uint64_t accesses[2 * OPS * MINJOLF_ACCESS_WIDTH] = {0};
    uint64_t table[ROWS * MINJOLF_COPY_COLUMNS] = {0};
    uint64_t back[OPS * MINJOLF_OP_WIDTH] = {0};
    uint64_t calls[OPS * MINJOLF_CALL_WIDTH] = {0};
    uint64_t counts[2] = {0};

    /* copy 9 bytes from cell 0 to cell 16 at stamp 4 */
    minjolf_answer expanded = collect_copy_ops(MINJOLF_COPY, 4, 0, 16, 9, GAP, bytes, CELLS, stamps, CELLS, ops,
                                               OPS * MINJOLF_OP_WIDTH, accesses, 2 * OPS * MINJOLF_ACCESS_WIDTH, counts);
    say("operation records", expanded);
    printf("access records: %" PRIu64 "\n", counts[1]);
    printf("copied: %s\n", (const char *)bytes + 16);

    minjolf_answer made =
        generate_copy_trace(ops, expanded.value * MINJOLF_OP_WIDTH, table, ROWS * MINJOLF_COPY_COLUMNS);
    say("table rows", made);

    /* only the rows written are checked */
    size_t written = made.value * MINJOLF_COPY_COLUMNS;
    say("chain check", chain_check(GAP, table, written));
    say("read back", read_back(GAP, table, written, back, OPS * MINJOLF_OP_WIDTH, calls, OPS * MINJOLF_CALL_WIDTH, counts));
    printf("call: kind %" PRIu64 ", stamp %" PRIu64 ", src %" PRIu64 ", dst %" PRIu64 ", count %" PRIu64 "\n", calls[0], calls[1],
           calls[2], calls[3], calls[4]);

    /* column 10 is the low word of SRC: the row now names another source */
    table[MINJOLF_COPY_COLUMNS + 10] += 1;
    say("chain check of the changed rows", chain_check(GAP, table, written));
    return 0;
}
