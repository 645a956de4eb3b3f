/* Calls every function of the library over the files that are named, as tools/check-c does: each text in memory of exactly its length, each output of exactly its
 * room, so that a byte read or written beyond an end is seen: by valgrind's memcheck where the memory is the heap's (word heap), and by the machine itself where
 * the memory ends or begins at a page that may not be touched (words after and before). Ends with the count of calls, or with the first answer that is wrong. */
#define _DEFAULT_SOURCE
#include <stdio.h>
#include <stdlib.h>
#include <string.h>
#include <sys/mman.h>

#include "thymebarrel.h"

enum where { HEAP, AFTER, BEFORE };

static enum where where;
static size_t calls;
/* of all results, so that a byte of them that was never written is looked at */
static unsigned long sum;

static const size_t PAGE = 4096;
static const size_t CARD = THYMEBARREL_CARD_BYTES;
static const size_t JSON = THYMEBARREL_JSON_BYTES;

static void demand(int holds, const char *what)
{
    if (!holds) {
        printf("call %lu: %s\n", (unsigned long)calls, what);
        exit(1);
    }
}

/* ---- memory of exactly so many bytes; none of it for 0 */

static size_t pages(size_t length)
{
    return (length + PAGE - 1) / PAGE * PAGE;
}

static uint8_t *lend(size_t length)
{
    uint8_t *area;
    size_t inner = pages(length);
    if (length == 0)
        return NULL;
    if (where == HEAP) {
        area = (uint8_t *)malloc(length);
        demand(area != NULL, "no memory");
        return area;
    }
    area = (uint8_t *)mmap(NULL, inner + 2 * PAGE, PROT_NONE, MAP_PRIVATE | MAP_ANONYMOUS, -1, 0);
    demand(area != (uint8_t *)MAP_FAILED, "no memory");
    demand(mprotect(area + PAGE, inner, PROT_READ | PROT_WRITE) == 0, "no memory");
    return where == BEFORE ? area + PAGE : area + PAGE + inner - length;
}

static void give_back(uint8_t *memory, size_t length)
{
    size_t inner = pages(length);
    if (length == 0)
        return;
    if (where == HEAP)
        free(memory);
    else
        munmap((where == BEFORE ? memory : memory - (inner - length)) - PAGE, inner + 2 * PAGE);
}

static uint8_t *copy_of(const uint8_t *bytes, size_t length)
{
    uint8_t *copy = lend(length);
    if (length > 0)
        memcpy(copy, bytes, length);
    return copy;
}

/* An output. Of an even room nothing is written before the call: memcheck tells if the call reads it. */
static uint8_t *output(size_t room)
{
    uint8_t *out = lend(room);
    if (room % 2 == 1)
        memset(out, 0xa5, room);
    return out;
}

static void check_output(const uint8_t *out, size_t room, size_t written)
{
    size_t k;
    demand(written <= room, "more written than there is room");
    for (k = 0; k < written; k++)
        sum = sum * 31 + out[k];
    for (k = written; room % 2 == 1 && k < room; k++)
        demand(out[k] == 0xa5, "a byte beyond the length was written");
}

/* ---- the services, with the text and the room that are given */

struct answer {
    uint8_t number;
    size_t length;
};

static struct answer convert(int home, const uint8_t *bytes, size_t length, size_t room)
{
    struct answer answer;
    uint8_t *text = copy_of(bytes, length), *stem = copy_of((const uint8_t *)"reg", 3), *out = output(room);
    size_t *told = (size_t *)(void *)lend(2 * sizeof(size_t));
    answer.number = home ? thymebarrel_json_to_card(text, length, out, room, told, told + 1)
                         : thymebarrel_card_to_json(stem, 3, 1, text, length, out, room, told, told + 1);
    calls++;
    answer.length = told[1];
    sum = sum * 31 + told[0];
    demand((answer.number == 0) == (answer.length > 0), "a length without a result, or none with one");
    check_output(out, room, answer.length);
    give_back(text, length);
    give_back(stem, 3);
    give_back(out, room);
    give_back((uint8_t *)told, 2 * sizeof(size_t));
    return answer;
}

static void look_up(const uint8_t *bytes, size_t length, const char *name)
{
    size_t of_name = strlen(name), start;
    uint8_t *text = copy_of(bytes, length), *word = copy_of((const uint8_t *)name, of_name);
    size_t *found = (size_t *)(void *)lend(sizeof(size_t));
    start = thymebarrel_member(text, length, word, of_name, found);
    calls++;
    demand(*found == 0 || (start < length && *found <= length - start), "a part that is not in the text");
    sum = sum * 31 + start + *found;
    give_back(text, length);
    give_back(word, of_name);
    give_back((uint8_t *)found, sizeof(size_t));
}

/* ---- a stream in two or more pieces */

struct stream {
    size_t *state, *told;
    uint8_t *stem, *buffer, *out;
};

static void answered(const struct stream *s, uint8_t number)
{
    calls++;
    demand(number != THYMEBARREL_BAD_STEM_OR_NUMBER && number != THYMEBARREL_STREAM_UNFIT, "a good call was refused");
    demand((number == 0) == (s->told[2] > 0), "a length without a result, or none with one");
    check_output(s->out, JSON, s->told[2]);
}

static void feed(const struct stream *s, const uint8_t *bytes, size_t length)
{
    uint8_t *piece = copy_of(bytes, length);
    size_t at = 0;
    do {
        uint8_t number = thymebarrel_stream_step(s->state, THYMEBARREL_STREAM_WORDS, s->stem, 3, length == 0 ? NULL : piece + at, length - at, s->buffer, CARD,
                                                 s->out, JSON, s->told, s->told + 1, s->told + 2);
        answered(s, number);
        at += s->told[0];
    } while (at < length);
    give_back(piece, length);
}

/* Pieces of that size, and two end calls. */
static void stream(const uint8_t *bytes, size_t length, size_t size)
{
    struct stream s;
    size_t at, k;
    s.state = (size_t *)(void *)lend(THYMEBARREL_STREAM_WORDS * sizeof(size_t));
    memset(s.state, 0, THYMEBARREL_STREAM_WORDS * sizeof(size_t));
    s.told = (size_t *)(void *)lend(3 * sizeof(size_t));
    s.stem = copy_of((const uint8_t *)"reg", 3);
    s.buffer = lend(CARD);
    s.out = output(JSON);
    feed(&s, NULL, 0);
    for (at = 0; at < length; at += size)
        feed(&s, bytes + at, length - at < size ? length - at : size);
    for (k = 0; k < 2; k++)
        answered(&s, thymebarrel_stream_end(s.state, THYMEBARREL_STREAM_WORDS, s.stem, 3, s.buffer, CARD, s.out, JSON, s.told, s.told + 1, s.told + 2));
    for (k = 0; k < THYMEBARREL_STREAM_WORDS; k++)
        demand(s.state[k] == 0, "not fresh after two end calls");
    give_back((uint8_t *)s.state, THYMEBARREL_STREAM_WORDS * sizeof(size_t));
    give_back((uint8_t *)s.told, 3 * sizeof(size_t));
    give_back(s.stem, 3);
    give_back(s.buffer, CARD);
    give_back(s.out, JSON);
}

/* ---- a file: whole, cut off at each byte, and with each room */

/* Each room from none to one byte more than the result, of a long one each hundredth. */
static void every_room(int home, const uint8_t *bytes, size_t length)
{
    size_t full = home ? CARD : JSON, room;
    struct answer want = convert(home, bytes, length, full), got;
    size_t step = 1 + want.length / 1000;
    for (room = 0; room <= want.length + 1; room += step) {
        got = convert(home, bytes, length, room);
        if (want.number != 0 || room >= want.length)
            demand(got.number == want.number && got.length == want.length, "another answer in another room");
        else
            demand(got.number == THYMEBARREL_OUTPUT_TOO_SHORT, "14 was not given");
    }
}

static void every_cut(const uint8_t *bytes, size_t length)
{
    size_t step = 1 + length / 1000, cut;
    for (cut = 0; cut <= length; cut += step) {
        convert(0, bytes, cut, JSON - cut % 2);
        convert(1, bytes, cut, CARD - cut % 2);
        look_up(bytes, cut, "uid");
    }
    look_up(bytes, length, "");
    look_up(bytes, length, "vCardProps");
}

static void file(const char *name)
{
    static uint8_t bytes[THYMEBARREL_JSON_BYTES + 2];
    size_t length;
    FILE *from = fopen(name, "rb");
    demand(from != NULL, name);
    length = fread(bytes, 1, sizeof bytes, from);
    fclose(from);
    every_room(0, bytes, length);
    every_room(1, bytes, length);
    every_cut(bytes, length);
    stream(bytes, length, length + 1);
    stream(bytes, length, 7);
    stream(bytes, length < 1000 ? length : 1000, 1);
}

int main(int count, char **words)
{
    int k;
    demand(count > 2, "usage: boundary heap|after|before FILE..");
    where = strcmp(words[1], "heap") == 0 ? HEAP : strcmp(words[1], "after") == 0 ? AFTER : BEFORE;
    for (k = 2; k < count; k++)
        file(words[k]);
    printf("%s: %lu calls over %d files, sum %lu\n", words[1], (unsigned long)calls, count - 2, sum);
    return 0;
}
