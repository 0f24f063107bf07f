/* Calls a run from C: prints the file of the worked example, and then two refusals. */
#include <stdint.h>
#include <stdio.h>
#include <string.h>

/* A slice is a pointer and then a length. */
int64_t voilechalk_run(uint32_t number, const uint8_t *tree, size_t tree_len, const uint8_t *file, size_t file_len,
                       const uint8_t *answers, size_t answers_len, uint8_t *out, size_t out_len);

static const char tree[] = "config TRACE\n\ttristate \"Trace\"\n\tdefault m\n"
                           "config LOG\n\tbool \"Log\"\n\tdepends on TRACE\n\tselect CLOCK\n"
                           "config CLOCK\n\tbool\n"
                           "config GRAMS\n\tint \"Limit\"\n\trange 5 80\n\tdefault 30\n";
static const char file[] = "CONFIG_TRACE=y\nCONFIG_LOG=y\nCONFIG_GRAMS=95\n";

static int64_t run(uint32_t number, uint8_t *out, size_t out_len) {
    return voilechalk_run(number, (const uint8_t *)tree, strlen(tree), (const uint8_t *)file, strlen(file),
                          (const uint8_t *)"", 0, out, out_len);
}

int main(void) {
    uint8_t out[45824], kept[45824];
    int64_t length = run(6, out, sizeof out);
    if (length < 0) return 1;
    fwrite(out, 1, (size_t)length, stdout);
    memset(out, '?', sizeof out);
    memset(kept, '?', sizeof kept);
    printf("%lld\n", (long long)run(6, out, (size_t)length - 1)); /* a buffer one byte short */
    printf("%lld\n", (long long)run(7, out, sizeof out));         /* an unknown run */
    return memcmp(out, kept, sizeof out) != 0;                    /* a refusal leaves the buffer */
}
