/*
 * A small box: it lets an image in, or not, and runs it. See README.md in this folder.
 *
 * Exit status: 0 where the run came to an end (30 to 33) and OUT, if asked for, holds the heap; 1 where the library refused, or the
 * run got stuck; 2 where the box was called wrongly, or something could not be read, taken or written. With 1 and 2 OUT is as it was.
 */
#define _POSIX_C_SOURCE 200809L

#include "muthaveri.h"

#include <errno.h>
#include <fcntl.h>
#include <inttypes.h>
#include <limits.h>
#include <signal.h>
#include <stdbool.h>
#include <stdio.h>
#include <stdlib.h>
#include <string.h>
#include <sys/resource.h>
#include <sys/stat.h>
#include <unistd.h>

/* No longer file is read. The longest image has 109 KiB, the longest heap 512 KiB. */
#define MOST_BYTES ((size_t)1 << 20)

/* The check of the deepest tree takes 2.04 million bytes of stack. Arguments and environment may have taken a quarter before. */
#define STACK_BYTES ((rlim_t)4 << 20)

/* The limits where none are given. */
#define USUAL_STEPS 1000000
#define USUAL_DEPTH MUTHAVERI_MOST_DEPTH

enum { ENDED = 0, REFUSED = 1, FAILED = 2 };

/* All that one start of the box holds. */
struct box {
    uint32_t *image;
    uint64_t *heap, *inputs, *room;
    size_t image_words, heap_words, input_words, room_words;
    uint64_t steps, depth;
};

/* Says what is wrong, and with what. Returns false, for callers that fail with it. */
static bool complain(const char *what, const char *why)
{
    fprintf(stderr, "box: %s: %s\n", what, why);
    return false;
}

/* Reads until the file ends or MOST_BYTES are exceeded, whatever the file is said to hold. Returns how many bytes there are, or -1. */
static ssize_t read_all(int file, unsigned char *bytes, const char *name)
{
    size_t got = 0;

    while (got <= MOST_BYTES) {
        ssize_t n = read(file, bytes + got, MOST_BYTES + 1 - got);

        if (n < 0 && errno == EINTR)
            continue;
        if (n < 0) {
            complain(name, strerror(errno));
            return -1;
        }
        if (n == 0)
            return (ssize_t)got;
        got += (size_t)n;
    }
    complain(name, "longer than 1 MiB, and no image, heap or inputs are");
    return -1;
}

/* Opens a plain file to read it, and nothing else. Returns -1 where that fails. */
static int open_plain(const char *name)
{
    struct stat about;
    int file = open(name, O_RDONLY | O_NONBLOCK | O_CLOEXEC); /* a pipe that nobody writes to must not hold us up */

    if (file < 0) {
        complain(name, strerror(errno));
        return -1;
    }
    if (fstat(file, &about) != 0)
        complain(name, strerror(errno));
    else if (S_ISDIR(about.st_mode))
        complain(name, "a directory, and no file of words");
    else if (!S_ISREG(about.st_mode))
        complain(name, "not a plain file");
    else
        return file;
    close(file);
    return -1;
}

/* The word of so many bytes, the least significant one first. */
static uint64_t word_at(const unsigned char *bytes, size_t width)
{
    uint64_t word = 0;

    while (width-- > 0)
        word = word << 8 | bytes[width];
    return word;
}

/* Copies bytes to new words of 4 or 8 bytes each. Returns null, and says why, where that fails; never null for an empty file. */
static void *words_of(const unsigned char *bytes, size_t length, size_t width, const char *name)
{
    size_t count = length / width;
    void *words;

    if (length % width != 0) {
        complain(name, width == 4 ? "its length is not a whole number of 32-bit words" : "its length is not a whole number of 64-bit words");
        return NULL;
    }
    words = calloc(count > 0 ? count : 1, width);
    if (words == NULL) {
        complain(name, "not enough memory");
        return NULL;
    }
    for (size_t i = 0; i < count; i++) {
        uint64_t word = word_at(bytes + i * width, width);

        if (width == 4)
            ((uint32_t *)words)[i] = (uint32_t)word;
        else
            ((uint64_t *)words)[i] = word;
    }
    return words;
}

/* Reads a whole file of words of 4 or 8 bytes. Returns them, or null after saying why; the caller frees them. */
static void *load(const char *name, size_t width, size_t *count)
{
    unsigned char *bytes;
    void *words = NULL;
    int file = open_plain(name);

    if (file < 0)
        return NULL;
    bytes = malloc(MOST_BYTES + 1);
    if (bytes == NULL) {
        complain(name, "not enough memory");
    } else {
        ssize_t length = read_all(file, bytes, name);

        if (length >= 0)
            words = words_of(bytes, (size_t)length, width, name);
        if (words != NULL)
            *count = (size_t)length / width;
    }
    free(bytes);
    close(file);
    return words;
}

/* A decimal number below 2^64, and nothing around it. */
static bool number_of(const char *text, uint64_t *number)
{
    uint64_t n = 0;

    if (*text == '\0')
        return false;
    for (; *text != '\0'; text++) {
        uint64_t digit = (uint64_t)(unsigned char)*text - '0';

        if (digit > 9 || n > (UINT64_MAX - digit) / 10)
            return false;
        n = n * 10 + digit;
    }
    *number = n;
    return true;
}

/* Writes the words, the least significant byte first, and has them reach the disk. */
static bool write_words(FILE *to, const uint64_t *words, size_t count)
{
    for (size_t i = 0; i < count; i++) {
        unsigned char bytes[8];

        for (size_t k = 0; k < 8; k++)
            bytes[k] = (unsigned char)(words[i] >> 8 * k & 255);
        if (fwrite(bytes, 1, 8, to) != 8)
            return false;
    }
    return fflush(to) == 0 && fsync(fileno(to)) == 0;
}

/* Puts the heap in the place of OUT: whole under another name first, then at once. Where anything fails, OUT is as it was. */
static bool save(const char *name, const struct box *b)
{
    char other[PATH_MAX];
    struct stat old;
    bool there = lstat(name, &old) == 0, good;
    int length = snprintf(other, sizeof other, "%s.%ld.part", name, (long)getpid());
    FILE *file;

    if (length < 0 || (size_t)length >= sizeof other)
        return complain(name, "too long a name");
    if (there && !S_ISREG(old.st_mode))
        return complain(name, "there already, and not a plain file");
    file = fopen(other, "wbx"); /* a file that is there already is somebody else's */
    if (file == NULL)
        return complain(other, strerror(errno));
    good = (!there || fchmod(fileno(file), old.st_mode & 0777) == 0) && write_words(file, b->heap, b->heap_words);
    if (!good)
        complain(other, strerror(errno));
    if (fclose(file) != 0 && good)
        good = complain(other, strerror(errno));
    if (good && rename(other, name) != 0)
        good = complain(name, strerror(errno));
    if (!good && unlink(other) != 0)
        complain(other, strerror(errno));
    return good;
}

/* What a number says, in the words of docs/NUMBERS.md. */
static const char *meaning(uint64_t number)
{
    switch (number) {
    case MUTHAVERI_ACCEPTED: return "nothing is broken";
    case MUTHAVERI_FORMAT: return "fewer than 8 words, or another format";
    case MUTHAVERI_TRAILER: return "a trailer word that does not fit the image";
    case MUTHAVERI_CEILING: return "a section, or main's inputs, over the ceiling";
    case MUTHAVERI_CLASS: return "a class record that is broken or missing";
    case MUTHAVERI_FIELD: return "a broken field record";
    case MUTHAVERI_METHOD: return "a broken method record";
    case MUTHAVERI_TYPE_WORD: return "a broken type word";
    case MUTHAVERI_NODE: return "a broken node record";
    case MUTHAVERI_BODIES: return "bodies that do not fill the node table";
    case MUTHAVERI_FIELDS_ABOVE: return "a class with more than 15 fields, those above it counted";
    case MUTHAVERI_OVERRIDE: return "a method that overrides badly";
    case MUTHAVERI_TYPING: return "a node without a type, or a body whose type does not fit the result";
    case MUTHAVERI_UNSET: return "a variable that is read where it is not surely set";
    case MUTHAVERI_HEAP_LENGTH: return "a heap of the wrong length";
    case MUTHAVERI_HEAP_WORD: return "a heap word that no heap of this image has there";
    case MUTHAVERI_INPUT: return "a wrong number of inputs, or an input that is no value";
    case MUTHAVERI_HEAP_TYPE: return "a heap word that does not fit its type";
    case MUTHAVERI_INPUT_TYPE: return "an input that does not fit its type";
    case MUTHAVERI_DEPTH: return "a depth limit outside 1 to 1024";
    case MUTHAVERI_ROOM: return "too little room for the depth limit";
    case MUTHAVERI_RETURNED: return "main returned a value";
    case MUTHAVERI_THREW: return "main threw an object";
    case MUTHAVERI_OUT_OF_STEPS: return "the limit of steps was reached";
    case MUTHAVERI_TOO_DEEP: return "the next step lies deeper than the depth limit allows";
    case MUTHAVERI_STUCK: return "no step can be taken";
    default: return "a number that this box does not know";
    }
}

static void show_value(uint64_t word)
{
    switch (muthaveri_tag(word)) {
    case MUTHAVERI_UNIT: printf(": unit"); break;
    case MUTHAVERI_NULL: printf(": null"); break;
    case MUTHAVERI_BOOL: printf(muthaveri_payload(word) != 0 ? ": true" : ": false"); break;
    case MUTHAVERI_INTEGER: printf(": %" PRId32, muthaveri_int32(word)); break;
    case MUTHAVERI_ADDRESS: printf(": address %" PRIu32, muthaveri_payload(word)); break;
    default: printf(": a word that is no value"); break;
    }
}

/* Shows an answer in one line: the question, number and place, what the number says, and of an end the value and the steps. */
static void show(const char *question, struct muthaveri_answer a)
{
    printf("%s: number %" PRIu64 " place %" PRIu64 ": %s", question, a.number, a.place, meaning(a.number));
    if (a.number == MUTHAVERI_RETURNED || a.number == MUTHAVERI_THREW)
        show_value(a.value);
    if (a.number >= MUTHAVERI_RETURNED)
        printf(", after %" PRIu64 " steps", a.count);
    putchar('\n');
}

/* Asks the three questions, each only if the one before was answered with 0: what is not let in is not run. */
static int ask(struct box *b)
{
    struct muthaveri_answer a = muthaveri_check(b->image, b->image_words);

    show("check", a);
    if (a.number != MUTHAVERI_ACCEPTED)
        return REFUSED;
    a = muthaveri_conform(b->image, b->image_words, b->heap, b->heap_words, b->inputs, b->input_words);
    show("conform", a);
    if (a.number != MUTHAVERI_ACCEPTED)
        return REFUSED;
    a = muthaveri_run(b->image, b->image_words, b->heap, b->heap_words, b->inputs, b->input_words, b->room, b->room_words, b->steps, b->depth);
    show("run", a);
    return a.number >= MUTHAVERI_RETURNED && a.number <= MUTHAVERI_TOO_DEEP ? ENDED : REFUSED;
}

/* The stack must do for the deepest image, since a file may hold that one. */
static bool stack_is_enough(void)
{
    struct rlimit stack;

    if (getrlimit(RLIMIT_STACK, &stack) == 0 && stack.rlim_cur != RLIM_INFINITY && stack.rlim_cur < STACK_BYTES)
        return complain("stack", "limited to less than 4 MiB, which a deep image may need (ulimit -s)");
    return true;
}

/* Reads the files and takes the room. What it took is in the box also where it fails. */
static bool fill(struct box *b, char **names)
{
    b->room_words = MUTHAVERI_ROOM_WORDS(MUTHAVERI_MOST_DEPTH);
    b->room = calloc(b->room_words, sizeof *b->room);
    if (b->room == NULL)
        return complain("room", "not enough memory");
    return (b->image = load(names[0], 4, &b->image_words)) != NULL && (b->heap = load(names[1], 8, &b->heap_words)) != NULL &&
           (b->inputs = load(names[2], 8, &b->input_words)) != NULL;
}

int main(int argc, char **argv)
{
    struct box b = {.steps = USUAL_STEPS, .depth = USUAL_DEPTH};
    int status = FAILED;

    if ((argc != 4 && argc != 6 && argc != 7) || (argc > 4 && !(number_of(argv[4], &b.steps) && number_of(argv[5], &b.depth)))) {
        fputs("usage: box IMAGE HEAP INPUTS [STEPS DEPTH [OUT]]\n", stderr);
        return FAILED;
    }
    signal(SIGXFSZ, SIG_IGN); /* a file that may not grow is an error to tell, and no end of the box */
    if (stack_is_enough() && fill(&b, argv + 1))
        status = ask(&b);
    if (fflush(stdout) != 0 || ferror(stdout)) {
        complain("standard output", "not all could be written");
        status = FAILED;
    }
    if (status == ENDED && argc == 7 && !save(argv[6], &b))
        status = FAILED;
    free(b.image);
    free(b.heap);
    free(b.inputs);
    free(b.room);
    return status;
}
