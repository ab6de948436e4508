/*
 * Calls of the library that the box never makes: every number that each question can answer, empty slices, too little room and more
 * room than is asked for. Each case is asked all three questions, and every word that was lent is looked at after each. Prints what is
 * not as it should be; the exit status is 1 then.
 */
#include "muthaveri.h"

#include <inttypes.h>
#include <stdbool.h>
#include <stdio.h>
#include <stdlib.h>
#include <string.h>

enum { HEAP = 64, DEPTH = 8, ROOM = 16 * DEPTH + 160, MORE_ROOM = ROOM + 7, FIELDS = 16, MANY = 5 + 3 * FIELDS + 12 };

/* What rooms hold before a call, and the byte that stands beside lent words. */
#define DIRT UINT64_C(0xdeadbeefdeadbeef)
enum { BESIDE = 0x5a, GUARD = 16 };

/* An image: sections, then the trailer. */
struct image {
    size_t words;
    uint32_t word[MANY];
};

static const struct image none = {0, {0}}, seven = {7, {12, 12, 12, 12, 0, 0, 1}},
    five = {16, {0, 0, 0, 0, 2, 1, 3, 5, 16, 12, 12, 12, 12, 0, 0, 1}},                   /* main is Integer 5 */
    maker = {16, {0, 0, 0, 0, 0, 1, 0, 0, 16, 12, 12, 12, 12, 0, 0, 1}},                  /* main makes an Object */
    same = {17, {0, 0, 0, 0, 2, 3, 1, 1, 0, 17, 13, 13, 13, 12, 0, 1, 1}},                /* main returns its Integer input */
    thrower = {20, {0, 0, 0, 0, 2, 1, 1, 0, 14, 2, 0, 0, 20, 16, 16, 16, 16, 1, 0, 1}},   /* main throws Null */
    sums = {40, {0, 0, 0, 0, 2, 1, 3, 1, 2, 1, 3, 1, 4, 3, 0, 0, 2, 1, 3, 1, 4, 5, 0, 0, 2, 1, 3, 1, 4, 7, 0, 0, 40, 36, 36, 36, 36, 6, 0, 1}}; /* ((1 + 1) + 1) + 1 */

/* One breach each. */
static const struct image format = {16, {0, 0, 0, 0, 2, 1, 3, 5, 16, 12, 12, 12, 12, 0, 0, 2}},
    longer = {16, {0, 0, 0, 0, 2, 1, 3, 5, 17, 12, 12, 12, 12, 0, 0, 1}},
    nine = {25, {0, 0, 0, 0, 2, 2, 2, 2, 2, 2, 2, 2, 2, 2, 1, 3, 5, 25, 21, 21, 21, 12, 0, 9, 1}},
    under = {16, {0, 0, 0, 1, 2, 1, 3, 5, 16, 12, 12, 12, 12, 0, 0, 1}},
    field = {19, {0, 0, 0, 0, 0, 7, 2, 2, 1, 3, 5, 19, 15, 12, 12, 12, 0, 0, 1}},
    method = {26, {0, 0, 0, 0, 0, 9, 2, 0, 0, 0, 2, 1, 3, 5, 2, 1, 3, 5, 26, 22, 22, 16, 16, 1, 0, 1}},
    type = {17, {0, 0, 0, 0, 3, 2, 1, 3, 5, 17, 13, 13, 13, 12, 0, 0, 1}},
    kind = {16, {0, 0, 0, 0, 16, 1, 0, 0, 16, 12, 12, 12, 12, 0, 0, 1}},
    body = {16, {0, 0, 0, 0, 2, 1, 3, 5, 16, 12, 12, 12, 12, 1, 0, 1}},
    overrides = {39, {0, 0, 0, 0, 0, 4, 4, 9, 2, 0, 0, 0, 5, 9, 2, 0, 1, 1, 2, 2, 1, 3, 5, 2, 1, 3, 5, 2, 1, 3, 5, 39, 33, 33, 21, 20, 2, 0, 1}},
    unknown = {16, {0, 0, 0, 0, 3, 1, 1, 0, 16, 12, 12, 12, 12, 0, 0, 1}},
    unset = {20, {0, 0, 0, 0, 3, 1, 1, 0, 10, 2, 1, 2, 20, 16, 16, 16, 16, 1, 0, 1}};

/* Class 4 has one field too many; this image is made when the program starts. */
static struct image fields = {MANY, {0}};

/* What is asked besides the image, and what has to come of it. The heap's four slots have these first words, and 0 elsewhere. */
struct asked {
    const char *name;
    const struct image *image;
    uint64_t first[4];
    size_t heap, inputs;
    uint64_t input;
    size_t room;
    uint64_t steps, depth;
    uint64_t check[2], conform[2];
    struct muthaveri_answer run;
    uint64_t fourth;
};

#define GOOD {2, 3, 4, 0}, HEAP
#define USUAL ROOM, 100, DEPTH
#define RETURNS(count, word) {30, 0, count, word}, 0
#define REFUSED(number, place) {number, place, 0, 0}, 0
#define ALL_THREE(number, place) {number, place}, {number, place}, REFUSED(number, place)
#define INT(n) ((UINT64_C(3) << 32) + (n))
#define AT(n) ((UINT64_C(4) << 32) + (n))

static const struct asked cases[] = {
    {"no image", &none, GOOD, 0, 0, USUAL, ALL_THREE(1, 0)},
    {"seven words", &seven, GOOD, 0, 0, USUAL, ALL_THREE(1, 0)},
    {"another format", &format, GOOD, 0, 0, USUAL, ALL_THREE(1, 0)},
    {"a trailer word", &longer, GOOD, 0, 0, USUAL, ALL_THREE(2, 0)},
    {"nine inputs", &nine, GOOD, 0, 0, USUAL, ALL_THREE(3, 6)},
    {"a class record", &under, GOOD, 0, 0, USUAL, ALL_THREE(4, 3)},
    {"a field record", &field, GOOD, 0, 0, USUAL, ALL_THREE(5, 0)},
    {"a method record", &method, GOOD, 0, 0, USUAL, ALL_THREE(6, 0)},
    {"a type word", &type, GOOD, 0, 0, USUAL, ALL_THREE(7, 0)},
    {"a node record", &kind, GOOD, 0, 0, USUAL, ALL_THREE(8, 0)},
    {"bodies", &body, GOOD, 0, 0, USUAL, ALL_THREE(9, 0)},
    {"sixteen fields", &fields, GOOD, 0, 0, USUAL, ALL_THREE(10, 4)},
    {"an override", &overrides, GOOD, 0, 0, USUAL, {11, 1}, {0, 0}, RETURNS(0, INT(5))},
    {"no type", &unknown, GOOD, 0, 0, USUAL, {12, 0}, {0, 0}, {34, 0, 0, 0}, 0},
    {"an unset variable", &unset, GOOD, 0, 0, USUAL, {13, 0}, {0, 0}, {34, 0, 0, 0}, 0},
    {"no heap", &five, {0}, 0, 0, 0, USUAL, {0, 0}, {14, 0}, REFUSED(14, 0)},
    {"two slots", &five, {2, 3}, 32, 0, 0, USUAL, {0, 0}, {14, 0}, REFUSED(14, 0)},
    {"half a slot", &five, {2, 3, 4, 0}, HEAP - 1, 0, 0, USUAL, {0, 0}, {14, 0}, REFUSED(14, 0)},
    {"no such class", &five, {2, 3, 4, 5}, HEAP, 0, 0, USUAL, {0, 0}, {15, 48}, REFUSED(15, 48)},
    {"an input too many", &five, GOOD, 1, INT(7), USUAL, {0, 0}, {16, 0}, REFUSED(16, 0)},
    {"no input", &same, GOOD, 0, 0, USUAL, {0, 0}, {16, 1}, REFUSED(16, 1)},
    {"an input that is no value", &same, GOOD, 1, DIRT, USUAL, {0, 0}, {16, 0}, REFUSED(16, 0)},
    {"a wrong class", &five, {2, 2, 4, 0}, HEAP, 0, 0, USUAL, {0, 0}, {17, 16}, RETURNS(0, INT(5))},
    {"an input of another type", &same, GOOD, 1, 0, USUAL, {0, 0}, {18, 0}, RETURNS(1, 0)},
    {"depth 0", &five, GOOD, 0, 0, ROOM, 100, 0, {0, 0}, {0, 0}, REFUSED(19, 0)},
    {"depth 1025", &five, GOOD, 0, 0, ROOM, 100, 1025, {0, 0}, {0, 0}, REFUSED(19, 0)},
    {"the largest depth", &five, GOOD, 0, 0, ROOM, 100, UINT64_MAX, {0, 0}, {0, 0}, REFUSED(19, 0)},
    {"no room", &five, GOOD, 0, 0, 0, 100, DEPTH, {0, 0}, {0, 0}, REFUSED(20, 0)},
    {"a word of room too little", &five, GOOD, 0, 0, ROOM - 1, 100, DEPTH, {0, 0}, {0, 0}, REFUSED(20, 0)},
    {"an Integer", &five, GOOD, 0, 0, USUAL, {0, 0}, {0, 0}, RETURNS(0, INT(5))},
    {"an input", &same, GOOD, 1, INT(7), USUAL, {0, 0}, {0, 0}, RETURNS(1, INT(7))},
    {"an object", &maker, GOOD, 0, 0, USUAL, {0, 0}, {0, 0}, {30, 0, 1, AT(3)}, 1},
    {"an object, more room", &maker, GOOD, 0, 0, MORE_ROOM, 1, DEPTH, {0, 0}, {0, 0}, {30, 0, 1, AT(3)}, 1},
    {"the largest limit of steps", &maker, GOOD, 0, 0, ROOM, UINT64_MAX, DEPTH, {0, 0}, {0, 0}, {30, 0, 1, AT(3)}, 1},
    {"a throw", &thrower, GOOD, 0, 0, USUAL, {12, 1}, {0, 0}, {31, 0, 1, AT(0)}, 0},
    {"a full heap", &maker, {2, 3, 4, 1}, HEAP, 0, 0, USUAL, {0, 0}, {0, 0}, {31, 0, 1, AT(2)}, 1},
    {"no step", &maker, GOOD, 0, 0, ROOM, 0, DEPTH, {0, 0}, {0, 0}, {32, 0, 0, 0}, 0},
    {"deep enough", &sums, GOOD, 0, 0, ROOM, 100, 2, {0, 0}, {0, 0}, RETURNS(3, INT(4))},
    {"too deep", &sums, GOOD, 0, 0, ROOM, 100, 1, {0, 0}, {0, 0}, {33, 0, 0, 0}, 0},
};

/* Which numbers came, a bit for each, by question; and which each question has. */
static uint64_t came[3];
#define UP_TO(n) ((UINT64_C(2) << (n)) - 1)
#define FROM_TO(m, n) (UP_TO(n) - UP_TO((m) - 1))
static const uint64_t due[3] = {UP_TO(13), UP_TO(10) + FROM_TO(14, 18), FROM_TO(1, 10) + FROM_TO(14, 16) + FROM_TO(19, 20) + FROM_TO(30, 34)};

/* Lent bytes, and so many guarding ones on either side. Without a guard a memory checker sees a step beside them. */
struct lent {
    unsigned char *start;
    size_t bytes, guard;
};

static void *lend(struct lent *l, const void *from, size_t bytes, size_t guard)
{
    *l = (struct lent){malloc(bytes + guard > 0 ? bytes + 2 * guard : 1), bytes, guard};
    if (l->start == NULL) {
        printf("not enough memory\n");
        exit(1);
    }
    memset(l->start, BESIDE, guard);
    memset(l->start + guard + bytes, BESIDE, guard);
    return memcpy(l->start + guard, from, bytes);
}

/* Lent bytes are these, and no guard has changed. */
static int changed(const struct lent *l, const void *bytes, const char *name, const char *what)
{
    int wrong = memcmp(l->start + l->guard, bytes, l->bytes) != 0;

    for (size_t i = 0; i < l->guard; i++)
        wrong |= l->start[i] != BESIDE || l->start[l->guard + l->bytes + i] != BESIDE;
    if (wrong)
        printf("%s: the %s is not as it should be\n", name, what);
    return wrong;
}

/* Tells what was expected and what came. */
static int differs(const char *name, size_t question, struct muthaveri_answer a, struct muthaveri_answer b)
{
    came[question] |= UINT64_C(1) << (a.number & 63);
    if (a.number == b.number && a.place == b.place && a.count == b.count && a.value == b.value)
        return 0;
    printf("%s: %" PRIu64 " %" PRIu64 " %" PRIu64 " %" PRIu64 ", expected %" PRIu64 " %" PRIu64 " %" PRIu64 " %" PRIu64 "\n", name,
           a.number, a.place, a.count, a.value, b.number, b.place, b.count, b.value);
    return 1;
}

static struct muthaveri_answer refusal(const uint64_t told[2])
{
    return (struct muthaveri_answer){told[0], told[1], 0, 0};
}

/* Heap and room as they are before the run, and as it has to leave them: a refusal leaves all, and an end clears the room. */
static void fill(const struct asked *c, uint64_t heap[2][HEAP], uint64_t room[2][MORE_ROOM])
{
    bool ends = c->run.number >= MUTHAVERI_RETURNED;

    memset(heap, 0, 2 * sizeof heap[0]);
    for (size_t i = 0; i < 4; i++)
        heap[0][16 * i] = heap[1][16 * i] = c->first[i];
    if (ends)
        heap[1][48] = c->fourth;
    for (size_t i = 0; i < MORE_ROOM; i++) {
        room[0][i] = DIRT;
        room[1][i] = ends ? 0 : DIRT;
    }
}

/* Asks a case all three questions, with words that are guarded by so many bytes. */
static int ask(const struct asked *c, size_t guard)
{
    uint64_t heap[2][HEAP], room[2][MORE_ROOM];
    struct lent lent[4];
    int wrong = 0;

    fill(c, heap, room);
    const uint32_t *image = lend(&lent[0], c->image->word, c->image->words * 4, guard);
    const uint64_t *inputs = lend(&lent[1], &c->input, c->inputs * 8, guard);
    uint64_t *words = lend(&lent[2], heap[0], c->heap * 8, guard), *space = lend(&lent[3], room[0], c->room * 8, guard);

    wrong += differs(c->name, 0, muthaveri_check(image, c->image->words), refusal(c->check));
    wrong += differs(c->name, 1, muthaveri_conform(image, c->image->words, words, c->heap, inputs, c->inputs), refusal(c->conform));
    wrong += changed(&lent[2], heap[0], c->name, "heap before the run");
    wrong += differs(c->name, 2, muthaveri_run(image, c->image->words, words, c->heap, inputs, c->inputs, space, c->room, c->steps, c->depth), c->run);
    wrong += changed(&lent[0], c->image->word, c->name, "image") + changed(&lent[1], &c->input, c->name, "input");
    wrong += changed(&lent[2], heap[1], c->name, "heap") + changed(&lent[3], room[1], c->name, "room");
    for (size_t i = 0; i < 4; i++)
        free(lent[i].start);
    return wrong;
}

/* Empty slices by a null pointer. */
static int nulls(void)
{
    const struct muthaveri_answer short_image = {1, 0, 0, 0}, short_heap = {14, 0, 0, 0}, good = {0, 0, 0, 0}, no_room = {20, 0, 0, 0};
    uint64_t heap[HEAP] = {2}, before[HEAP];

    heap[16] = 3;
    heap[32] = 4;
    memcpy(before, heap, sizeof heap);
    int wrong = differs("check, null", 0, muthaveri_check(NULL, 0), short_image);
    wrong += differs("conform, null", 1, muthaveri_conform(NULL, 0, NULL, 0, NULL, 0), short_image);
    wrong += differs("conform, null heap", 1, muthaveri_conform(five.word, five.words, NULL, 0, NULL, 0), short_heap);
    wrong += differs("conform, null inputs", 1, muthaveri_conform(five.word, five.words, heap, HEAP, NULL, 0), good);
    wrong += differs("run, null", 2, muthaveri_run(NULL, 0, NULL, 0, NULL, 0, NULL, 0, 100, DEPTH), short_image);
    wrong += differs("run, null heap", 2, muthaveri_run(five.word, five.words, NULL, 0, NULL, 0, NULL, 0, 100, DEPTH), short_heap);
    wrong += differs("run, null room", 2, muthaveri_run(five.word, five.words, heap, HEAP, NULL, 0, NULL, 0, 100, DEPTH), no_room);
    if (memcmp(before, heap, sizeof heap) != 0)
        wrong += printf("run, null room: the heap is changed\n") > 0;
    return wrong;
}

/* The header's ways from words to values and back. */
static int values(void)
{
    static const int32_t numbers[] = {0, 1, -1, INT32_MAX, INT32_MIN};
    uint64_t address = muthaveri_word(MUTHAVERI_ADDRESS, 4095);
    int wrong = muthaveri_tag(address) != MUTHAVERI_ADDRESS || muthaveri_payload(address) != 4095;

    for (size_t i = 0; i < sizeof numbers / sizeof *numbers; i++)
        wrong |= muthaveri_int32(muthaveri_integer(numbers[i])) != numbers[i] || muthaveri_tag(muthaveri_integer(numbers[i])) != MUTHAVERI_INTEGER;
    wrong |= MUTHAVERI_ROOM_WORDS(DEPTH) != ROOM;
    if (wrong)
        printf("values: a word is read or made wrongly\n");
    return wrong;
}

/* Class 4 with its fields, and main is Integer 5. */
static void make_fields(void)
{
    static const uint32_t end[12] = {2, 1, 3, 5, MANY, MANY - 5, 12, 12, 12, 0, 0, 1};

    for (uint32_t i = 0; i < FIELDS; i++) {
        fields.word[5 + 3 * i] = 4;
        fields.word[6 + 3 * i] = i;
        fields.word[7 + 3 * i] = 2;
    }
    memcpy(fields.word + MANY - 12, end, sizeof end);
}

int main(void)
{
    static const char *const questions[3] = {"check", "conform", "run"};
    int wrong = values() + nulls();

    make_fields();
    for (size_t i = 0; i < sizeof cases / sizeof *cases; i++)
        wrong += ask(&cases[i], 0) + ask(&cases[i], GUARD);
    for (size_t q = 0; q < 3; q++)
        if (came[q] != due[q])
            wrong += printf("%s: the numbers that came are the bits of %" PRIx64 ", due are %" PRIx64 "\n", questions[q], came[q], due[q]) > 0;
    return wrong != 0;
}
