/* Converts the card on standard input to JSON on standard output; with the word home, JSON to a card. Build it at the top of the repository:
 *
 *     tools/prove-library
 *     cc -Iinclude examples/convert.c target/staticlib/libthymebarrel.a -o convert
 *     ./convert < examples/ada.vcf | ./convert home
 */
#include <stdio.h>
#include <string.h>

#include "thymebarrel.h"
#include "thymebarrel_reason.h"

/* One byte more than an input may have, so that a longer one is refused and not cut. */
static uint8_t in[THYMEBARREL_JSON_BYTES + 1];
static uint8_t out[THYMEBARREL_JSON_BYTES];

int main(int count, char **words)
{
    const uint8_t stem[] = {'r', 'e', 'g'};
    size_t place, written;
    size_t length = fread(in, 1, sizeof in, stdin);
    int home = count > 1 && strcmp(words[1], "home") == 0;
    uint8_t answer = home ? thymebarrel_json_to_card(in, length, out, sizeof out, &place, &written)
                          : thymebarrel_card_to_json(stem, sizeof stem, 1, in, length, out, sizeof out, &place, &written);
    if (answer != THYMEBARREL_CONVERTED) {
        fprintf(stderr, "refused %u at place %lu\n%s\n", (unsigned)answer, (unsigned long)place, thymebarrel_reason(answer));
        return 1;
    }
    fwrite(out, 1, written, stdout);
    if (!home)
        putchar('\n');
    return 0;
}
