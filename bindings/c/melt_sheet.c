/* A melt sheet. cc bindings/c/melt_sheet.c crates/ffi/out/libffi.a -o melt_sheet && ./melt_sheet */
#include "indovalump.h"
#include <stdio.h>
#include <string.h>

static uint32_t head[3];
static uint64_t items[INDOVALUMP_ITEMS];
static uint16_t units[INDOVALUMP_UNITS];

static uint32_t put(uint32_t index, const char *ascii) {
    uint16_t text[64];
    size_t n = strlen(ascii);
    for (size_t i = 0; i < n; i++) text[i] = (uint16_t)(unsigned char)ascii[i];
    return indovalump_insert(head, items, INDOVALUMP_ITEMS, units, INDOVALUMP_UNITS, index, text, n);
}

int main(void) {
    static uint32_t ops[8 * INDOVALUMP_ITEMS];
    static uint16_t text[INDOVALUMP_UNITS];
    const uint8_t bold[16] = {1};
    size_t seen, runs;

    indovalump_fresh(head);
    put(0, "tin 12 percent");
    indovalump_format(head, items, INDOVALUMP_ITEMS, units, INDOVALUMP_UNITS, 7, 7, 1, bold);
    put(0, "Metal: ");
    printf("refused %u\n", indovalump_remove_range(head, items, INDOVALUMP_ITEMS, units, INDOVALUMP_UNITS, 20, 5));

    indovalump_text(head, items, INDOVALUMP_ITEMS, units, INDOVALUMP_UNITS, 0, UINT32_MAX, text, INDOVALUMP_UNITS, &seen);
    indovalump_runs(head, items, INDOVALUMP_ITEMS, units, INDOVALUMP_UNITS, true, ops, 8 * INDOVALUMP_ITEMS, &runs);
    printf("len %zu\n", seen);
    for (size_t i = 0; i < runs; i++) {
        const uint32_t *op = ops + 8 * i;
        printf("%s\"", op[3] & 1 ? "bold " : "");
        for (uint32_t k = 0; k < op[2]; k++) putchar(text[op[1] + k]);
        printf("\"\n");
    }
    return 0;
}
