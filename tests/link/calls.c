/* The three calls from C: prints what they answer of one text, and the refusals of another. */
#include "buldrekso.h"

#include <stdio.h>
#include <string.h>

static uint32_t trees[BULDREKSO_TREE_WIDTH * BULDREKSO_TREE_MOST];
static uint32_t syntax[BULDREKSO_SYNTAX_WIDTH * BULDREKSO_SYNTAX_MOST];
static uint8_t output[BULDREKSO_RESPACED_MOST];

static void records(const char *name, uint64_t answer, const uint32_t *table, size_t width) {
    if (buldrekso_refused(answer)) {
        printf("refused,%u,%u\n", buldrekso_number(answer), buldrekso_place(answer));
        return;
    }
    printf("%s,%llu\n", name, (unsigned long long)answer);
    for (size_t i = 0; i < answer * width; i++) {
        printf("%u%c", table[i], (i + 1) % width == 0 ? '\n' : ',');
    }
}

static void all(const char *script) {
    const uint8_t *text = (const uint8_t *)script;
    size_t length = strlen(script);
    records("trees", buldrekso_read(text, length, trees, sizeof trees / sizeof *trees), trees, BULDREKSO_TREE_WIDTH);
    records("syntax", buldrekso_parse(text, length, trees, sizeof trees / sizeof *trees, syntax, sizeof syntax / sizeof *syntax), syntax, BULDREKSO_SYNTAX_WIDTH);
    uint64_t answer = buldrekso_respace(text, length, output, sizeof output);
    if (buldrekso_refused(answer)) {
        printf("refused,%u,%u\n", buldrekso_number(answer), buldrekso_place(answer));
    } else {
        fwrite(output, 1, answer, stdout);
    }
}

int main(void) {
    all("a = {b: /)/} / c;");
    all("a/)/;");
    return 0;
}
