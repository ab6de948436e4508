/*
 * How much stack each question takes: images are asked about whose trees are as deep as each kind of node allows, with a stack that was
 * painted before. Prints the most bytes of each question; the exit status is 1 where include/muthaveri.h asks hosts for less.
 * The main thread's stack must have 5 MiB.
 */
#include "muthaveri.h"

#include <stdbool.h>
#include <stdio.h>
#include <stdlib.h>
#include <string.h>

enum { NODES = 4096, HEAP = 64, ROOM = 16 * 1024 + 160, PAINTED = 4 << 20, PAINT = 0xa5 };

/* What the header says that a host has to have free. */
enum { CHECK_BYTES = 3 << 20, OTHER_BYTES = 64 << 10 };

/* A way to go down: a kind of node, and a leaf before or after the operand that goes on. */
struct way {
    const char *name;
    uint32_t kind, x, y;
    const uint32_t *before, *after;
};

static const uint32_t object[4] = {0, 1, 4, 0}, yes[4] = {2, 1, 2, 1}, null[4] = {2, 1, 1, 0};

/* Class 4 has the field 7 and the methods 9, without arguments, and 10, with one; the type of all of them is class 4. So is main's input. */
static const struct way ways[] = {
    {"Cast", 1, 4, 0, NULL, NULL},           {"Assign", 6, 1, 0, NULL, NULL},         {"field get", 7, 7, 4, NULL, NULL},
    {"field set, object", 8, 7, 4, NULL, object}, {"field set, value", 8, 7, 4, object, NULL}, {"Call, receiver", 9, 9, 0, NULL, NULL},
    {"Call, argument", 9, 10, 1, object, NULL},  {"Block", 10, 2, 8, NULL, NULL},         {"Seq, first", 11, 0, 0, NULL, object},
    {"Seq, second", 11, 0, 0, object, NULL}, {"If, then", 12, 0, 0, yes, object},     {"While", 13, 0, 0, yes, NULL},
    {"Throw", 14, 8, 0, NULL, NULL},         {"Try, first", 15, 4, 2, NULL, object},  {"Try, second", 15, 4, 2, object, NULL},
};

struct image {
    size_t words;
    uint32_t word[MUTHAVERI_MOST_IMAGE_WORDS];
};

static void put(struct image *i, const uint32_t *words, size_t count)
{
    memcpy(i->word + i->words, words, count * sizeof *words);
    i->words += count;
}

/* An image whose main goes down this way with all the nodes that there may be. */
static void make(struct image *i, const struct way *w)
{
    static const uint32_t tables[5 + 3 + 12 + 1] = {0, 0, 0, 0, 0, 4, 7, 8, 4, 9, 8, 0, 0, 0, 4, 10, 8, 0, 1, 1, 8};
    size_t each = 1 + (w->before != NULL) + (w->after != NULL), levels = (NODES - 3) / each, nodes = 3 + levels * each;

    i->words = 0;
    put(i, tables, sizeof tables / sizeof *tables);
    put(i, null, 4);
    put(i, null, 4);
    for (size_t k = 0; w->before != NULL && k < levels; k++)
        put(i, w->before, 4);
    put(i, object, 4);
    for (size_t k = 1; k <= levels; k++) {
        const uint32_t node[4] = {w->kind, (uint32_t)(1 + k * each), w->x, w->y};

        if (w->after != NULL)
            put(i, w->after, 4);
        put(i, node, 4);
    }
    const uint32_t n = (uint32_t)(4 * nodes + 8), trailer[8] = {n + 21, n + 16, n + 13, n + 1, n, (uint32_t)(nodes - 1), 1, 1};
    put(i, trailer, 8);
}

/* All that the questions are asked about. */
static struct image image;
static uint64_t heap[HEAP], room[ROOM], input = (uint64_t)MUTHAVERI_NULL << 32;

/* A function of its own, so that no argument of a question stays on the stack between painting and looking. */
__attribute__((noinline)) static struct muthaveri_answer ask(size_t question)
{
    switch (question) {
    case 0: return muthaveri_check(image.word, image.words);
    case 1: return muthaveri_conform(image.word, image.words, heap, HEAP, &input, 1);
    default: return muthaveri_run(image.word, image.words, heap, HEAP, &input, 1, room, ROOM, 1000, MUTHAVERI_MOST_DEPTH);
    }
}

/* Paints these bytes, or counts those from the first one on that is not painted any more. */
__attribute__((noinline)) static size_t look(volatile unsigned char *bytes, bool paint)
{
    size_t i = 0;

    for (; i < PAINTED && (paint || bytes[i] == PAINT); i++)
        if (paint)
            bytes[i] = PAINT;
    return PAINTED - i;
}

/* The same with the stack that a function called from here has. */
__attribute__((noinline)) static size_t stack(bool paint)
{
    unsigned char bytes[PAINTED];

    return look(bytes, paint);
}

/* The bytes of stack that a question takes; more than are painted where it does not answer as it should. */
static size_t taken(const char *way, size_t question)
{
    stack(true);
    struct muthaveri_answer a = ask(question);
    size_t bytes = stack(false);
    bool good = question < 2 ? a.number == MUTHAVERI_ACCEPTED : a.number >= MUTHAVERI_RETURNED && a.number <= MUTHAVERI_TOO_DEEP;

    if (!good)
        printf("%s: question %zu is answered with %d at %d\n", way, question, (int)a.number, (int)a.place);
    return good ? bytes : PAINTED + 1;
}

int main(void)
{
    static const char *const questions[3] = {"check", "conform", "run"};
    static const size_t free_bytes[3] = {CHECK_BYTES, OTHER_BYTES, OTHER_BYTES};
    int wrong = 0;

    for (size_t q = 0; q < 3; q++) {
        size_t most = 0;
        const char *by = "";

        for (size_t k = 0; k < sizeof ways / sizeof *ways; k++) {
            memset(heap, 0, sizeof heap);
            for (size_t i = 0; i < 3; i++)
                heap[16 * i] = i + 2;
            make(&image, &ways[k]);
            size_t bytes = taken(ways[k].name, q);

            if (bytes > most) {
                most = bytes;
                by = ways[k].name;
            }
        }
        printf("stack of %s: %zu bytes (%s)\n", questions[q], most, by);
        wrong |= most > free_bytes[q];
    }
    return wrong;
}
