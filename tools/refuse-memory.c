/* Counts the requests for memory of the program that it is preloaded into, from `main` on, and refuses some of them.
 * tools/refuse-memory compiles it and says what to refuse by words of the environment:
 *
 *   REFUSE_IN     the program that this is for, as it is called; others that are started on the way go on as ever
 *   REFUSE_SEEN   a file of 16 bytes: how many requests there were, and how many were refused
 *   REFUSE_FROM   the number of the first request that is refused, from 1 on; 0: none
 *   REFUSE_ALL    1: each later request is refused too; 0: that one alone
 *   REFUSE_SPACE  how many bytes of addresses the system gives from `main` on, for blocks and for stacks of threads
 */
#define _GNU_SOURCE
#include <dlfcn.h>
#include <errno.h>
#include <fcntl.h>
#include <stdatomic.h>
#include <stdlib.h>
#include <string.h>
#include <sys/mman.h>
#include <sys/resource.h>
#include <unistd.h>

struct seen {
    atomic_ulong asked, refused;
};

static struct seen own, *seen = &own;
static unsigned long from;
static int all_later;
static atomic_int counts;

static void *(*next_malloc)(size_t);
static void *(*next_calloc)(size_t, size_t);
static void *(*next_realloc)(void *, size_t);
static void *(*next_memalign)(size_t, size_t);
static int (*next_posix_memalign)(void **, size_t, size_t);
static int (*program)(int, char **, char **);

static int is_refused(void) {
    if (!atomic_load(&counts)) return 0;
    unsigned long number = atomic_fetch_add(&seen->asked, 1) + 1;
    if (from == 0 || number < from || (number > from && !all_later)) return 0;
    atomic_fetch_add(&seen->refused, 1);
    errno = ENOMEM;
    return 1;
}

static void *next(const char *name) { return dlsym(RTLD_NEXT, name); }

void *malloc(size_t size) {
    if (is_refused()) return NULL;
    if (!next_malloc) next_malloc = next("malloc");
    return next_malloc(size);
}

void *calloc(size_t count, size_t size) {
    if (is_refused()) return NULL;
    if (!next_calloc) next_calloc = next("calloc");
    return next_calloc(count, size);
}

void *realloc(void *block, size_t size) {
    if (is_refused()) return NULL;
    if (!next_realloc) next_realloc = next("realloc");
    return next_realloc(block, size);
}

void *memalign(size_t align, size_t size) {
    if (is_refused()) return NULL;
    if (!next_memalign) next_memalign = next("memalign");
    return next_memalign(align, size);
}

void *aligned_alloc(size_t align, size_t size) { return memalign(align, size); }

int posix_memalign(void **to, size_t align, size_t size) {
    if (is_refused()) return ENOMEM;
    if (!next_posix_memalign) next_posix_memalign = next("posix_memalign");
    return next_posix_memalign(to, align, size);
}

static unsigned long number_of(const char *name) {
    const char *said = getenv(name);
    return said ? strtoul(said, NULL, 10) : 0;
}

/* From here on the system gives this many bytes of addresses. The stack of `main` has grown before, so it asks for none. */
static void limit_space(unsigned long bytes) {
    volatile char stack[1 << 20];
    for (size_t at = 0; at < sizeof stack; at += 4096) stack[at] = 0;
    char text[64] = "";
    int file = open("/proc/self/statm", O_RDONLY | O_CLOEXEC);
    if (file < 0 || read(file, text, sizeof text - 1) <= 0) return;
    close(file);
    unsigned long used = strtoul(text, NULL, 10) * (unsigned long)sysconf(_SC_PAGESIZE);
    struct rlimit limit = {used + bytes, used + bytes};
    setrlimit(RLIMIT_AS, &limit);
}

static int counted(int count, char **words, char **environment) {
    const char *name = getenv("REFUSE_IN");
    if (!name || count < 1 || strcmp(name, words[0]) != 0) return program(count, words, environment);
    const char *file = getenv("REFUSE_SEEN");
    int shared = file ? open(file, O_RDWR | O_CLOEXEC) : -1;
    if (shared >= 0) {
        void *at = mmap(NULL, sizeof *seen, PROT_READ | PROT_WRITE, MAP_SHARED, shared, 0);
        if (at != MAP_FAILED) seen = at;
        close(shared);
    }
    from = number_of("REFUSE_FROM");
    all_later = number_of("REFUSE_ALL") != 0;
    if (getenv("REFUSE_SPACE")) limit_space(number_of("REFUSE_SPACE"));
    atomic_store(&counts, 1);
    int status = program(count, words, environment);
    atomic_store(&counts, 0);
    return status;
}

/* What starts a program hands its `main` to this function of the C library, which here gets `counted` in its place. */
int __libc_start_main(int (*main)(int, char **, char **), int count, char **words, void (*begin)(void),
                      void (*end)(void), void (*unload)(void), void *stack_end) {
    typeof(&__libc_start_main) start = (typeof(&__libc_start_main))next("__libc_start_main");
    program = main;
    return start(counted, count, words, begin, end, unload, stack_end);
}
