/*
 * What box.c and calls.c use of the C library that the kit has for x86-64 Linux. The kit has that library and a compiler, but no
 * headers. tools/kit-cc gives each header that they ask for this text. A host that is built with its own machine's compiler uses its
 * own machine's headers.
 */
#ifndef MUTHAVERI_KIT_H
#define MUTHAVERI_KIT_H

#if !defined(__x86_64__) || !defined(__linux__)
#error "these declarations are those of x86-64 Linux"
#endif

/* Numbers. */
typedef __SIZE_TYPE__ size_t;
typedef __INT32_TYPE__ int32_t;
typedef __UINT32_TYPE__ uint32_t;
typedef __UINT64_TYPE__ uint64_t;

#define INT32_MAX __INT32_MAX__
#define INT32_MIN (-INT32_MAX - 1)
#define UINT32_MAX __UINT32_MAX__
#define UINT64_MAX __UINT64_MAX__
#define UINT64_C(n) n##UL
#define PRId32 "d"
#define PRIu32 "u"
#define PRIu64 "lu"
#define PRIx64 "lx"

#ifndef __cplusplus /* include/muthaveri.h asks for no more than the above, as C++ too */

#define NULL ((void *)0)
#define bool _Bool
#define true 1
#define false 0

/* Errors. */
int *__errno_location(void);
#define errno (*__errno_location())
#define EINTR 4
char *strerror(int error);

/* Memory. */
void *malloc(size_t size);
void *calloc(size_t count, size_t size);
void free(void *memory);
void *memcpy(void *restrict to, const void *restrict from, size_t size);
void *memset(void *to, int byte, size_t size);
int memcmp(const void *a, const void *b, size_t size);

/* Streams. */
typedef struct muthaveri_kit_stream FILE;
extern FILE *stdout, *stderr;
int printf(const char *restrict format, ...) __attribute__((format(printf, 1, 2)));
int fprintf(FILE *restrict to, const char *restrict format, ...) __attribute__((format(printf, 2, 3)));
int snprintf(char *restrict to, size_t size, const char *restrict format, ...) __attribute__((format(printf, 3, 4)));
int putchar(int byte);
int fputs(const char *restrict text, FILE *restrict to);
FILE *fopen(const char *restrict name, const char *restrict mode);
size_t fwrite(const void *restrict from, size_t size, size_t count, FILE *restrict to);
int fflush(FILE *stream);
int ferror(FILE *stream);
int fileno(FILE *stream);
int fclose(FILE *stream);

/* Files. */
typedef long ssize_t;
#define PATH_MAX 4096
#define O_RDONLY 0
#define O_NONBLOCK 04000
#define O_CLOEXEC 02000000
int open(const char *name, int flags, ...);
ssize_t read(int file, void *to, size_t size);
int close(int file);
int fsync(int file);
int unlink(const char *name);
int rename(const char *from, const char *to);
int getpid(void);

/* 144 bytes, of which the mode stands at 24. */
struct stat {
    unsigned long st_dev, st_ino, st_nlink;
    unsigned st_mode, st_uid, st_gid;
    int muthaveri_kit_gap;
    unsigned long muthaveri_kit_rest[13];
};
_Static_assert(sizeof(struct stat) == 144, "struct stat");
#define S_ISDIR(mode) (((mode) & 0170000) == 0040000)
#define S_ISREG(mode) (((mode) & 0170000) == 0100000)
int fstat(int file, struct stat *about);
int lstat(const char *restrict name, struct stat *restrict about);
int fchmod(int file, unsigned mode);

/* The process. */
_Noreturn void exit(int status);
typedef unsigned long rlim_t;
struct rlimit {
    rlim_t rlim_cur, rlim_max;
};
#define RLIMIT_STACK 3
#define RLIM_INFINITY (~0UL)
int getrlimit(int which, struct rlimit *limit);
#define SIGXFSZ 25
#define SIG_IGN ((void (*)(int))1)
void (*signal(int number, void (*handler)(int)))(int);

#endif
#endif
