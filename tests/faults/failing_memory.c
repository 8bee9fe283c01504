/* A library to preload: it counts the program's requests for memory and refuses the one that it is told to. The test and the
   program share a page, the file that FAILING_MEMORY names, so that a test can say at any moment which request is to fail,
   and read how many there were and how large the greatest was.

   A request of ARM + N bytes, which no program can be given, arms it from inside: the Nth request from then on is refused, none
   where N is 0; and of ARM + ALL + N bytes the Nth and all after it. Without the library it is refused as well and arms nothing.

   The C library's own requests, as those of a thread that starts, are counted and refused like the program's. */
#define _GNU_SOURCE
#include <dlfcn.h>
#include <errno.h>
#include <fcntl.h>
#include <stdlib.h>
#include <string.h>
#include <sys/mman.h>
#include <unistd.h>

#define ARM ((size_t)1 << 62)
#define ALL ((size_t)1 << 32)

struct page {
    long waits;    /* set by the test: 1 where nothing counts before the first read of standard input */
    long left;     /* which request from now on is refused: 1 is the next, 0 none, -1 each */
    long stays;    /* 1 where all requests after the one that is refused are refused too */
    long count;    /* how many requests were made */
    long refused;  /* how many of them were refused */
    long greatest; /* the bytes of the greatest request */
};

static struct page unshared;
static struct page *page = &unshared;

static void *(*real_malloc)(size_t);
static void *(*real_calloc)(size_t, size_t);
static void *(*real_realloc)(void *, size_t);
static int (*real_posix_memalign)(void **, size_t, size_t);
static void *(*real_aligned_alloc)(size_t, size_t);
static void (*real_free)(void *);
static ssize_t (*real_read)(int, void *, size_t);

/* What is asked for while the C library's calls are looked up is given from here, and never given back. */
static _Alignas(16) char early[16384];
static size_t early_used;
static int is_starting;

static void *take_early(size_t size) {
    size_t from = early_used;
    early_used += (size + 15) / 16 * 16;
    return early_used <= sizeof early ? early + from : NULL;
}

static int is_early(const void *given) { return (const char *)given >= early && (const char *)given < early + sizeof early; }

static void share_page(void) {
    const char *name = getenv("FAILING_MEMORY");
    int file = name ? open(name, O_RDWR | O_CLOEXEC) : -1;
    if (file < 0) return;
    void *shared = mmap(NULL, sizeof *page, PROT_READ | PROT_WRITE, MAP_SHARED, file, 0);
    close(file);
    if (shared != MAP_FAILED) page = shared;
}

static void start(void) {
    is_starting = 1;
    real_calloc = (void *(*)(size_t, size_t))dlsym(RTLD_NEXT, "calloc");
    real_realloc = (void *(*)(void *, size_t))dlsym(RTLD_NEXT, "realloc");
    real_posix_memalign = (int (*)(void **, size_t, size_t))dlsym(RTLD_NEXT, "posix_memalign");
    real_aligned_alloc = (void *(*)(size_t, size_t))dlsym(RTLD_NEXT, "aligned_alloc");
    real_free = (void (*)(void *))dlsym(RTLD_NEXT, "free");
    real_read = (ssize_t(*)(int, void *, size_t))dlsym(RTLD_NEXT, "read");
    real_malloc = (void *(*)(size_t))dlsym(RTLD_NEXT, "malloc");
    share_page();
    is_starting = 0;
}

static void note_size(long size) {
    long greatest = __atomic_load_n(&page->greatest, __ATOMIC_SEQ_CST);
    while (size > greatest && !__atomic_compare_exchange_n(&page->greatest, &greatest, size, 0, __ATOMIC_SEQ_CST, __ATOMIC_SEQ_CST)) {
    }
}

static int refuse(void) {
    __atomic_add_fetch(&page->refused, 1, __ATOMIC_SEQ_CST);
    errno = ENOMEM;
    return 1;
}

/* Counts one request less to the one that is refused, and says whether this is it. */
static int is_its_turn(void) {
    long left = __atomic_load_n(&page->left, __ATOMIC_SEQ_CST);
    while (left > 0) {
        long next = left == 1 && page->stays ? -1 : left - 1;
        if (__atomic_compare_exchange_n(&page->left, &left, next, 0, __ATOMIC_SEQ_CST, __ATOMIC_SEQ_CST)) return left == 1;
    }
    return left < 0;
}

static void arm(size_t what) {
    page->stays = what >= ALL;
    page->left = (long)(what % ALL);
}

/* Whether a request is refused. */
static int refuses(size_t size) {
    if (size >= ARM) {
        arm(size - ARM);
        errno = ENOMEM;
        return 1;
    }
    if (page->waits) return 0;
    __atomic_add_fetch(&page->count, 1, __ATOMIC_SEQ_CST);
    note_size((long)size);
    return is_its_turn() && refuse();
}

void *malloc(size_t size) {
    if (is_starting) return take_early(size);
    if (!real_malloc) start();
    return refuses(size) ? NULL : real_malloc(size);
}

void *calloc(size_t count, size_t size) {
    if (is_starting) return take_early(count * size);
    if (!real_malloc) start();
    return refuses(count * size) ? NULL : real_calloc(count, size);
}

void *realloc(void *old, size_t size) {
    if (is_starting) return take_early(size);
    if (!real_malloc) start();
    if (refuses(size)) return NULL;
    if (!is_early(old)) return real_realloc(old, size);
    void *given = real_malloc(size);
    size_t there = (size_t)(early + sizeof early - (char *)old);
    return given ? memcpy(given, old, size < there ? size : there) : NULL;
}

int posix_memalign(void **given, size_t alignment, size_t size) {
    if (!real_malloc) start();
    return refuses(size) ? ENOMEM : real_posix_memalign(given, alignment, size);
}

void *aligned_alloc(size_t alignment, size_t size) {
    if (!real_malloc) start();
    return refuses(size) ? NULL : real_aligned_alloc(alignment, size);
}

void free(void *given) {
    if (is_early(given)) return;
    if (!real_malloc) start();
    real_free(given);
}

/* Requests count from the first read of standard input on, where they wait for it. */
ssize_t read(int file, void *bytes, size_t size) {
    if (!real_malloc) start();
    if (file == 0) page->waits = 0;
    return real_read(file, bytes, size);
}
