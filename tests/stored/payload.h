/* replay_payload: whether a payload is length-prefixed, and what the conversion to Annex B writes. */
#ifndef STORED_PAYLOAD_H
#define STORED_PAYLOAD_H

#include "cases.h"

/* Nothing, or all of up to 64 bytes; of more the first and the last 16, and a checksum of all. */
static void annex_b_word(const uint8_t *out, size_t count)
{
    if (count == 0)
        return;
    printf(" ");
    if (count <= 64) {
        say_hex("", out, count);
        return;
    }
    say_hex("", out, 16);
    printf("..");
    say_hex("", out + count - 16, 16);
    printf(" %08x", (unsigned)checksum(out, count));
}

/* The output is as long as the payload: it is never longer. */
static void payload_line(size_t index, const uint8_t *payload, size_t count)
{
    Args a = {0};
    lend_as(&a, DATA, count, payload);
    lend_as(&a, OUT, count, NULL);
    printf("%zu: %s ", index, asked(IS_AVC, &a).yes ? "yes" : "no");
    const Result r = asked(ANNEX_B, &a);
    if (r.number != 0) {
        printf("refused\n");
    } else if (r.count > a.count[OUT]) {
        printf("%zu, a count past the output\n", r.count);
    } else {
        printf("%zu", r.count);
        annex_b_word(a.at[OUT], r.count);
        printf("\n");
    }
    over(ANNEX_B);
}

static void replay_payload(void)
{
    each_payload(payload_line);
}

#endif
