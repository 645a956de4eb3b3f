/* Reads a stream of cards from standard input and writes a line for each answer: its JSON, or a refusal's number and place. Build it at the top of
 * the repository:
 *
 *     tools/prove-library
 *     cc -Iinclude examples/stream.c target/staticlib/libthymebarrel.a -o stream
 *     cat examples/ada.vcf examples/zoe.vcf | ./stream
 */
#include <stdio.h>
#include <string.h>

#include "thymebarrel.h"

static const uint8_t stem[] = {'r', 'e', 'g'};
static uint8_t piece[1000]; /* of any size */
static uint8_t buffer[THYMEBARREL_CARD_BYTES];
static uint8_t out[THYMEBARREL_JSON_BYTES];
static size_t state[THYMEBARREL_STREAM_WORDS]; /* all 0: fresh */
static const size_t fresh[THYMEBARREL_STREAM_WORDS] = {0};

static void tell(uint8_t answer, size_t place, size_t written)
{
    if (answer == THYMEBARREL_MORE)
        return;
    if (answer == THYMEBARREL_CONVERTED)
        fwrite(out, 1, written, stdout);
    else
        printf("refused %u at place %lu", (unsigned)answer, (unsigned long)place);
    putchar('\n');
}

int main(void)
{
    size_t length, at, consumed, place, written;
    uint8_t answer;
    while ((length = fread(piece, 1, sizeof piece, stdin)) > 0)
        for (at = 0; at < length; at += consumed) {
            answer = thymebarrel_stream_step(state, THYMEBARREL_STREAM_WORDS, stem, sizeof stem, piece + at, length - at, buffer, sizeof buffer, out,
                                             sizeof out, &consumed, &place, &written);
            /* 15 and 16 would consume nothing; with this stem and these sizes they are not given */
            tell(answer, place, written);
        }
    /* end calls until the state is fresh: two at the most */
    do {
        answer = thymebarrel_stream_end(state, THYMEBARREL_STREAM_WORDS, stem, sizeof stem, buffer, sizeof buffer, out, sizeof out, &consumed, &place,
                                        &written);
        tell(answer, place, written);
    } while (memcmp(state, fresh, sizeof fresh) != 0);
    return 0;
}
