/*
 * Muthaveri's three questions for a caller in C or C++: may an image be let in, do a heap and inputs fit it, and what does a run of it
 * come to? The functions are those of the static library of the crate `muthaveri` (x86-64).
 *
 * What the caller owes. Nothing checks it, and the proofs rest on it.
 *
 *   - Lengths count words, not bytes: 32-bit words of an image, 64-bit words of all else.
 *   - A pointer is good for so many words, is aligned as its type (4 bytes for an image, 8 for all else), and stays so during the call.
 *     Where the length is 0 nothing is read or written, and the pointer may be null; with any other length it may not.
 *   - muthaveri_run writes its heap and its room. Neither may overlap the other, the image or the inputs, and no other thread may read
 *     or write them during the call. What is only read may overlap and may be shared.
 *   - The stack is large enough. muthaveri_check goes down the trees of an image by calls, about 500 bytes a level: 2.04 million bytes
 *     were measured for the deepest tree there can be, 4,096 nodes one above the other. Have 3 MiB free, in a thread of your own too.
 *     The two others take the same whatever the image is: 19 KiB were measured, have 64 KiB free.
 *
 * What is promised. Words may be any words, and limits any numbers: each call returns, and its answer is the one that the definitions
 * fix. muthaveri_check and muthaveri_conform write nothing. The library has no state, takes no memory of its own and makes no system
 * call, so calls may run side by side.
 *
 *   - If muthaveri_check and muthaveri_conform both answer 0, a run of that image, heap and inputs with a depth of 1 to 1,024 and
 *     room enough ends with 30 to 33, and the heap that it leaves fits the image again.
 *   - A refusal (1 to 20) changes no word of the heap or the room.
 *   - At an end (30 to 34) the heap is as exactly `count` steps leave it, and every word of the room is 0, however long the room is.
 */
#ifndef MUTHAVERI_H
#define MUTHAVERI_H

#include <stddef.h>
#include <stdint.h>

#ifdef __cplusplus
extern "C" {
#endif

/*
 * An answer. If several rules are broken, `number` is the lowest that is, and `place` the lowest place at which it is. `count` is the
 * number of steps of a run that came to an end, and `value` the value word of the ends 30 and 31; both are 0 everywhere else.
 */
struct muthaveri_answer {
    uint64_t number;
    uint64_t place;
    uint64_t count;
    uint64_t value;
};

/* The numbers, in the words of docs/NUMBERS.md. After the dash: what `place` is, where it is not 0. */
enum {
    /* from muthaveri_check and muthaveri_conform */
    MUTHAVERI_ACCEPTED = 0,         /* nothing is broken */

    /* from all three */
    MUTHAVERI_FORMAT = 1,           /* fewer than 8 words, or another format */
    MUTHAVERI_TRAILER = 2,          /* a trailer word that does not fit the image - trailer word */
    MUTHAVERI_CEILING = 3,          /* a section, or main's inputs, over the ceiling - trailer word */
    MUTHAVERI_CLASS = 4,            /* a class record that is broken or missing - class, or the class count where there are too few */
    MUTHAVERI_FIELD = 5,            /* a broken field record - field */
    MUTHAVERI_METHOD = 6,           /* a broken method record - method */
    MUTHAVERI_TYPE_WORD = 7,        /* a broken type word - type word */
    MUTHAVERI_NODE = 8,             /* a broken node record - node */
    MUTHAVERI_BODIES = 9,           /* bodies that do not fill the node table - method, or the method count for main */
    MUTHAVERI_FIELDS_ABOVE = 10,    /* a class with more than 15 fields, those above it counted - class */

    /* from muthaveri_check */
    MUTHAVERI_OVERRIDE = 11,        /* a method that overrides badly - method */
    MUTHAVERI_TYPING = 12,          /* a node without a type, or a body whose type does not fit the result - node */
    MUTHAVERI_UNSET = 13,           /* a variable that is read where it is not surely set - node */

    /* from muthaveri_conform and muthaveri_run */
    MUTHAVERI_HEAP_LENGTH = 14,     /* a heap of the wrong length */
    MUTHAVERI_HEAP_WORD = 15,       /* a heap word that no heap of this image has there - heap word */
    MUTHAVERI_INPUT = 16,           /* a wrong number of inputs, or an input that is no value - input, or main's input count where the number is wrong */

    /* from muthaveri_conform */
    MUTHAVERI_HEAP_TYPE = 17,       /* a heap word that does not fit its type - heap word */
    MUTHAVERI_INPUT_TYPE = 18,      /* an input that does not fit its type - input */

    /* from muthaveri_run */
    MUTHAVERI_DEPTH = 19,           /* a depth limit outside 1 to 1024 */
    MUTHAVERI_ROOM = 20,            /* too little room for the depth limit */

    /* from muthaveri_run, as ends; 34 never after two answers of 0, as said above */
    MUTHAVERI_RETURNED = 30,        /* main returned a value */
    MUTHAVERI_THREW = 31,           /* main threw an object */
    MUTHAVERI_OUT_OF_STEPS = 32,    /* the limit of steps was reached */
    MUTHAVERI_TOO_DEEP = 33,        /* the next step lies deeper than the depth limit allows */
    MUTHAVERI_STUCK = 34            /* no step can be taken - node */
};

/* Limits, in words but for the depth. */
enum {
    MUTHAVERI_MOST_IMAGE_WORDS = 27912,     /* no longer image is accepted */
    MUTHAVERI_SLOT_WORDS = 16,              /* a heap is a whole number of slots */
    MUTHAVERI_FEWEST_HEAP_WORDS = 48,
    MUTHAVERI_MOST_HEAP_WORDS = 65536,
    MUTHAVERI_MOST_INPUTS = 8,
    MUTHAVERI_MOST_DEPTH = 1024
};

/* The words of room that a depth limit of 1 to MUTHAVERI_MOST_DEPTH asks for. More are allowed, and are cleared as well. */
#define MUTHAVERI_ROOM_WORDS(depth) ((size_t)16 * (size_t)(depth) + (size_t)160)

/* May this image be let in? 0 to 13. */
struct muthaveri_answer muthaveri_check(const uint32_t *image, size_t image_words);

/* Do this heap and these inputs fit the image? 0 to 10 and 14 to 18. Whether the image may be let in is the first question's to say. */
struct muthaveri_answer muthaveri_conform(const uint32_t *image, size_t image_words, const uint64_t *heap, size_t heap_words,
                                          const uint64_t *inputs, size_t input_words);

/*
 * What does a run of the image on the heap come to, with these inputs for main, after at most `steps` steps and at most `depth` deep?
 * 1 to 10, 14 to 16, 19, 20, or 30 to 34. The heap is changed in place. The words that the room holds before do not matter.
 */
struct muthaveri_answer muthaveri_run(const uint32_t *image, size_t image_words, uint64_t *heap, size_t heap_words,
                                      const uint64_t *inputs, size_t input_words, uint64_t *room, size_t room_words, uint64_t steps,
                                      uint64_t depth);

/* A value word has a tag in its upper 32 bits and a payload in its lower 32. */
enum {
    MUTHAVERI_UNIT = 0,     /* payload 0 */
    MUTHAVERI_NULL = 1,     /* payload 0 */
    MUTHAVERI_BOOL = 2,     /* payload 0 or 1 */
    MUTHAVERI_INTEGER = 3,  /* payload: 32 bits, two's complement */
    MUTHAVERI_ADDRESS = 4   /* payload: the number of a slot, 0 to 4,095 */
};

/* The tag. A word that is no value may have any. */
static inline uint32_t muthaveri_tag(uint64_t word)
{
    return (uint32_t)(word >> 32);
}

static inline uint32_t muthaveri_payload(uint64_t word)
{
    return (uint32_t)(word & UINT32_MAX);
}

/* The number that an Integer's word stands for. */
static inline int32_t muthaveri_int32(uint64_t word)
{
    uint32_t p = muthaveri_payload(word);

    return p <= (uint32_t)INT32_MAX ? (int32_t)p : (int32_t)(p - (uint32_t)INT32_MAX - 1) + INT32_MIN;
}

/* The word of a tag and a payload. */
static inline uint64_t muthaveri_word(uint32_t tag, uint32_t payload)
{
    return ((uint64_t)tag << 32) | payload;
}

/* The word of an Integer. */
static inline uint64_t muthaveri_integer(int32_t number)
{
    return muthaveri_word(MUTHAVERI_INTEGER, (uint32_t)number);
}

#ifdef __cplusplus
}
#endif

#endif
