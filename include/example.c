/* A bundle of two messages, `b = Hi` and `a = { b -> *[x] Hello }`; the text of
 * `a`, and the workspace that it needs:
 *
 *   cc -Iinclude include/example.c target/staticlib/libexports.a && ./a.out
 */
#include <stdio.h>
#include <string.h>

#include "weszlagyo.h"

static uint8_t store[128], text[64], list[64], work[64];
static size_t written, errors, begun, used;
static uint64_t unfound;

/* Formats `a` with a workspace of that length. */
static uint8_t format(size_t work_length) {
    static const uint8_t no_arguments[] = {0, 0, 0, 7, 1, 0, 0};
    return weszlagyo_format(store, sizeof store, (const uint8_t *)"a", 1, false, (const uint8_t *)"", 0, no_arguments,
                            sizeof no_arguments, text, sizeof text, list, sizeof list, work, work_length, &written,
                            &errors, &begun, &unfound, &used);
}

int main(void) {
    static const uint8_t image[] = {0, 0, 0, 0x42, 1, 0, 2,                         /* two entries */
                                    1, 0, 1, 'b', 1,                                /* message b, with a value */
                                    0, 0, 0, 7, 0, 1, 1, 0, 2, 'H', 'i',            /* the pattern */
                                    0, 0,                                           /* no attribute */
                                    1, 0, 1, 'a', 1,                                /* message a, with a value */
                                    0, 0, 0, 0x1E, 0, 1, 2, 8, 4, 0, 1, 'b', 0,     /* a select on b */
                                    0, 1, 1, 0, 1, 'x', 1,                          /* one variant, the default */
                                    0, 0, 0, 0x0A, 0, 1, 1, 0, 5, 'H', 'e', 'l', 'l', 'o', /* its pattern */
                                    0, 0};                                          /* no attribute */
    size_t count, needed;
    uint8_t refused;

    refused = weszlagyo_new(store, sizeof store, 0, 1);
    if (!refused)
        refused = weszlagyo_add_resource(store, sizeof store, image, sizeof image, list, sizeof list, &count);
    if (!refused)
        refused = weszlagyo_add_function(store, sizeof store, (const uint8_t *)"NUMBER", 6, 1);
    if (!refused)
        refused = format(sizeof work);
    /* "Hi" was there: a workspace of 2 bytes is enough from now on, and no shorter one is */
    needed = used;
    if (!refused)
        refused = format(needed);
    if (refused) {
        printf("refused: %d\n", refused);
        return 1;
    }
    printf("%.*s\n", (int)written, (const char *)text);
    if (written != 5 || memcmp(text, "Hello", 5) != 0 || errors != 0 || begun != 1 || used != needed || needed != 2)
        return 1;
    return format(needed - 1) == 16 ? 0 : 1;
}
