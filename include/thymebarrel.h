/* thymebarrel.h: the proved library for C and C++. Build target/staticlib/libthymebarrel.a by tools/prove-library and link it.
 *
 * What is proved of these functions is proved for every input; what C can break is this: each pointer must lead to as many readable (or, where
 * it is not const, writable) bytes as the length beside it says, for the time of the call, and nothing that is written may overlap anything else
 * that is handed in. A null pointer with length 0 is an empty text. Nothing is kept after a call, nothing is allocated, and calls from
 * several threads do not meet. */
#ifndef THYMEBARREL_H
#define THYMEBARREL_H

#include <stddef.h>
#include <stdint.h>

#ifdef __cplusplus
extern "C" {
#endif

/* The version of this header and of the library that belongs to it. */
#define THYMEBARREL_VERSION "0.1.0"
#define THYMEBARREL_VERSION_MAJOR 0
#define THYMEBARREL_VERSION_MINOR 1
#define THYMEBARREL_VERSION_PATCH 0

/* A thread that calls any of these functions needs so many bytes of stack at least. It is not proved: the most that was measured is 438,000 bytes, and a
 * short input may take nearly all of that (docs/PERFORMANCE.md), so do not choose a smaller stack for small inputs. */
#define THYMEBARREL_STACK_BYTES 524288

/* What an answer means, in words: thymebarrel_reason(answer) of thymebarrel_reason.h, which stands alone. */

/* JSON of at most so many bytes is read and written, and a card of at most so many. */
#define THYMEBARREL_JSON_BYTES 65536
#define THYMEBARREL_CARD_BYTES 32768

/* A stream's state is so many numbers that the caller keeps; all 0, it is the fresh state. */
#define THYMEBARREL_STREAM_WORDS 7

/* What a call answers: 0, or a refusal's number. A refused call puts 0 behind `written` and the refusal's place behind
 * `place`, and leaves every byte of `out` as it was. Of several refusals that hold, the first in the order below is given:
 * each is sought over all input before the next.
 *
 *     a card    15, 3 (its bytes), 1, 3 (its lines), 4, 5, 6, 7, 8, 9, 10, 3 (the JSON), 14
 *     JSON      3 (its bytes), 11, 12, 13, 3 (the card's lines, its bytes), 14
 *     a stream  16, 15; then the line that answers decides: 1, 2, or at END:VCARD 3 (past number 999,999, or over 32,768
 *               bytes) and after it what the card gives, from 1 on; 14 is not given, since 16 asks for room enough
 *
 * The place is the number of the first offending unfolded line (VERSION is 1) for 4, 5, 7, 8 and 9. For 11 it is the
 * offset of the first byte at which no JSON of depth 16 can still follow, the length of the text where it only stops
 * short, and 0 for equal names in one object or a surrogate alone. For all others it is 0. */
#define THYMEBARREL_CONVERTED 0

/* Refusals of a card, in the order in which they are first sought. */
#define THYMEBARREL_BAD_STEM_OR_NUMBER 15 /* stem: 1 to 200 of A-Z a-z 0-9 : - _; number, where one is given: 1 to 999,999 */
#define THYMEBARREL_OVER_ROOM 3 /* a card over 32,768 bytes or 512 lines, or JSON over 65,536 bytes, given or made */
#define THYMEBARREL_NOT_ONE_CARD 1 /* BEGIN first, END last, no other such line, no empty line around them */
#define THYMEBARREL_NOT_TEXT 4 /* a line is not UTF-8 after unfolding, or has a control character other than tab */
#define THYMEBARREL_OFF_GRAMMAR 5 /* or over 32 parameters or 64 parameter values, or named BEGIN or END */
#define THYMEBARREL_NOT_VERSION_4 6 /* the first line is not VERSION:4.0 */
#define THYMEBARREL_BAD_PARAMETER 7 /* group or parameter on UID or KIND, GROUP, or VALUE that is no single name */
#define THYMEBARREL_REPEATED 8 /* a second VERSION, UID or KIND */
#define THYMEBARREL_BAD_UID_OR_KIND 9 /* UID empty, KIND empty or not of name characters */
#define THYMEBARREL_NO_FN 10
#define THYMEBARREL_OUTPUT_TOO_SHORT 14 /* the result is longer than the output that was lent */

/* Refusals of JSON, between 3 and 3, in the order in which they are sought. */
#define THYMEBARREL_NOT_JSON 11 /* RFC 8259: grammar, UTF-8, depth 16, equal names in one object, a surrogate alone */
#define THYMEBARREL_NOT_A_CARD 12 /* JSON, but no JSContact card within the rules */
#define THYMEBARREL_NOT_CARRIED 13 /* a card that lines of vCard cannot carry */

/* Of a stream besides. Here 1 is a line outside a card that is neither empty nor BEGIN:VCARD, and 3 also a card past number
 * 999,999. 1 is told when its line is whole, 3 when END:VCARD is. A card that met BEGIN or the end before END is 2, also one
 * that would be 3. */
#define THYMEBARREL_MORE 255 /* no line answered */
#define THYMEBARREL_STREAM_UNFIT 16 /* card buffer or output too short, or not seven numbers in their ranges (docs/STREAM.md) */
#define THYMEBARREL_CARD_LEFT_OPEN 2 /* a card met BEGIN or the end before END */

/* Card to JSON. The JSON is written to the front of `out`; its length is put behind `written` and 0 is answered. A refused card is answered with its number, its
 * place behind `place`, and every byte of `out` is as it was. The stem and the number make the UID of a card that has none. THYMEBARREL_JSON_BYTES of
 * output are always enough. `place` and `written` must not be null.
 *
 *     size_t place, written;
 *     uint8_t answer = thymebarrel_card_to_json((const uint8_t *)"reg", 3, 1, card, card_length, out, sizeof out, &place, &written);
 *     if (answer == THYMEBARREL_CONVERTED) fwrite(out, 1, written, stdout);
 */
uint8_t thymebarrel_card_to_json(const uint8_t *stem, size_t stem_length, size_t number, const uint8_t *card, size_t card_length, uint8_t *out,
                                 size_t out_length, size_t *place, size_t *written);

/* JSON to card, likewise: the card is written to the front of `out`, and THYMEBARREL_CARD_BYTES of output are always enough.
 *
 *     uint8_t answer = thymebarrel_json_to_card(json, json_length, out, sizeof out, &place, &written);
 */
uint8_t thymebarrel_json_to_card(const uint8_t *json, size_t json_length, uint8_t *out, size_t out_length, size_t *place, size_t *written);

/* A call of a stream of cards with a piece, which may be cut anywhere. It is read until a line answers, else all of it; how many bytes were consumed is put behind
 * `consumed`, and the rest is handed in again. Answered are THYMEBARREL_MORE, THYMEBARREL_CONVERTED with the JSON at the front of `out` and its length behind `written`, or a
 * refusal's number with its place behind `place`; every other byte of `out` is as it was. `state` is THYMEBARREL_STREAM_WORDS numbers; `buffer` holds the open card and is at
 * least THYMEBARREL_CARD_BYTES, `out` at least THYMEBARREL_JSON_BYTES. State and buffer are the caller's to keep from call
 * to call, and not to change. 15 and 16 consume nothing, and leave every number of the state and every byte of the buffer
 * as it was. Four of the seven numbers are flags: one that is not 1 reads as 0, and every call that 15 and 16 let pass hands
 * each of them back as 0 or 1.
 * No pointer may be null, but that of an empty text.
 *
 *     size_t state[THYMEBARREL_STREAM_WORDS] = {0}, consumed, place, written;
 *     for (size_t at = 0; at < length; at += consumed) {
 *       uint8_t answer = thymebarrel_stream_step(state, 7, stem, stem_length, piece + at, length - at, buffer, sizeof buffer, out, sizeof out, &consumed, &place, &written);
 *       if (answer == THYMEBARREL_BAD_STEM_OR_NUMBER || answer == THYMEBARREL_STREAM_UNFIT) break;
 *       if (answer == THYMEBARREL_CONVERTED) fwrite(out, 1, written, stdout);
 *     }
 */
uint8_t thymebarrel_stream_step(size_t *state, size_t state_length, const uint8_t *stem, size_t stem_length, const uint8_t *piece, size_t piece_length,
                                uint8_t *buffer, size_t buffer_length, uint8_t *out, size_t out_length, size_t *consumed, size_t *place, size_t *written);

/* An end call of a stream: one LF is supposed, and nothing is consumed. It answers as a step does. At most two of them make the state fresh, all 0 again: call it until
 * then, or the last card of an input without its last line end may go unanswered.
 *
 *     static const size_t fresh[THYMEBARREL_STREAM_WORDS] = {0};
 *     do {
 *       uint8_t answer = thymebarrel_stream_end(state, 7, stem, stem_length, buffer, sizeof buffer, out, sizeof out, &consumed, &place, &written);
 *       if (answer == THYMEBARREL_BAD_STEM_OR_NUMBER || answer == THYMEBARREL_STREAM_UNFIT) break;
 *       if (answer == THYMEBARREL_CONVERTED) fwrite(out, 1, written, stdout);
 *     } while (memcmp(state, fresh, sizeof fresh) != 0);
 */
uint8_t thymebarrel_stream_end(size_t *state, size_t state_length, const uint8_t *stem, size_t stem_length, uint8_t *buffer, size_t buffer_length, uint8_t *out,
                               size_t out_length, size_t *consumed, size_t *place, size_t *written);

/* Where the value of the top-level member of that name begins in the JSON; its length is put behind `length`, 0 where there is none: where the text is
 * over THYMEBARREL_JSON_BYTES, is no JSON (RFC 8259, depth 16, no equal names in one object) or no object, or has no such member. Names are compared
 * decoded, byte for byte. `length` must not be null.
 *
 *     size_t length;
 *     size_t start = thymebarrel_member(json, json_length, (const uint8_t *)"uid", 3, &length);
 *     if (length > 0) fwrite(json + start, 1, length, stdout);
 */
size_t thymebarrel_member(const uint8_t *json, size_t json_length, const uint8_t *name, size_t name_length, size_t *length);

#ifdef __cplusplus
}
#endif

#endif
