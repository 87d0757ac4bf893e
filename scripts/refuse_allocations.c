// Loaded in front of the C library, it refuses allocations of a program, each in a copy of the process of its own: the
// copy gets no memory this once, and goes on to its end. What it wrote and how it ended is tested, and told in a line
// of the file REPORT: `NUMBER` where it ended with status 14 and has written `no memory` or a front of what stands in
// the file WANTED; `NUMBER does without` where it ended with the status STATUS and has written all of WANTED; and else
// `NUMBER: ` and why not. The process itself gets all memory that it asks for.
// EVERY is how many allocations come to one that is refused. Input and output must be files.
#define _GNU_SOURCE
#include <dlfcn.h>
#include <errno.h>
#include <fcntl.h>
#include <stdio.h>
#include <stdlib.h>
#include <string.h>
#include <sys/mman.h>
#include <sys/stat.h>
#include <sys/wait.h>
#include <unistd.h>

static const char LINE[] = "no memory\n";

static long calls; // allocations so far
static int is_copy; // this process is one that was refused an allocation
static int is_busy; // allocations now are of this file's own doing
static char text[1 << 20];

// whether bytes are a front of a text
static int is_front(const char *bytes, size_t len, const char *of, size_t of_len) {
    return len <= of_len && memcmp(bytes, of, len) == 0;
}

// whether bytes are a front, or all, of the text that is wanted, from this place of it on
static int is_wanted(const char *bytes, size_t len, off_t from, int is_whole) {
    struct stat about;
    int file = open(getenv("WANTED"), O_RDONLY);
    if (file < 0 || fstat(file, &about) || about.st_size < from) return 0;
    const char *wanted = about.st_size ? mmap(NULL, about.st_size, PROT_READ, MAP_PRIVATE, file, 0) : "";
    int answer = is_front(bytes, len, wanted + from, about.st_size - from);
    if (is_whole && (off_t)len != about.st_size - from) answer = 0;
    if (about.st_size) munmap((void *)wanted, about.st_size);
    close(file);
    return answer;
}

// tells how a copy ended that was refused this allocation; so much of the text was written before
static void tell(long number, int status, int out, off_t written) {
    static int report = -1;
    char line[200];
    int size = 0;
    ssize_t len = pread(out, text, sizeof text, 0);
    if (report < 0) report = open(getenv("REPORT"), O_WRONLY | O_APPEND | O_CREAT, 0600);
    if (len < 0 || len == sizeof text) size = snprintf(line, sizeof line, "%ld: its text can't be read\n", number);
    else if (WIFSIGNALED(status)) size = snprintf(line, sizeof line, "%ld: signal %d\n", number, WTERMSIG(status));
    else if (WEXITSTATUS(status) == atoi(getenv("STATUS")) && is_wanted(text, len, written, 1)) size = snprintf(line, sizeof line, "%ld does without\n", number);
    else if (WEXITSTATUS(status) != 14) size = snprintf(line, sizeof line, "%ld: status %d\n", number, WEXITSTATUS(status));
    else if (is_front(text, len, LINE, strlen(LINE)) && written == 0) size = snprintf(line, sizeof line, "%ld\n", number);
    else if (is_wanted(text, len, written, 0)) size = snprintf(line, sizeof line, "%ld\n", number);
    else size = snprintf(line, sizeof line, "%ld: another text of %zd bytes\n", number, len);
    if (write(report, line, size) != size) abort();
}

// true in the copy of the process in which this allocation is refused
static int is_refused_in_copy(void) {
    off_t at = lseek(0, 0, SEEK_CUR), written = lseek(1, 0, SEEK_CUR);
    int out = memfd_create("text", 0), status = 0;
    if (at < 0 || written < 0 || out < 0) abort();
    pid_t copy = fork();
    if (copy < 0) abort();
    if (copy == 0) {
        is_copy = 1;
        alarm(60); // a copy that doesn't end is ended
        dup2(out, 1);
        return 1;
    }
    if (waitpid(copy, &status, 0) != copy) abort();
    // a copy reads the same input: what it read is given back
    lseek(0, at, SEEK_SET);
    tell(calls, status, out, written);
    close(out);
    return 0;
}

static int is_refused(void) {
    if (is_copy || is_busy) return 0;
    calls++;
    if (calls % atol(getenv("EVERY"))) return 0;
    is_busy = 1;
    int answer = is_refused_in_copy();
    is_busy = 0;
    return answer;
}

// the function of the C library
static void *real(const char *name) {
    is_busy++;
    void *found = dlsym(RTLD_NEXT, name);
    is_busy--;
    return found;
}

void *malloc(size_t size) {
    static void *(*next)(size_t);
    if (!next) next = real("malloc");
    return is_refused() ? NULL : next(size);
}

void *realloc(void *old, size_t size) {
    static void *(*next)(void *, size_t);
    if (!next) next = real("realloc");
    return is_refused() ? NULL : next(old, size);
}

void *aligned_alloc(size_t align, size_t size) {
    static void *(*next)(size_t, size_t);
    if (!next) next = real("aligned_alloc");
    return is_refused() ? NULL : next(align, size);
}

int posix_memalign(void **out, size_t align, size_t size) {
    static int (*next)(void **, size_t, size_t);
    if (!next) next = real("posix_memalign");
    return is_refused() ? ENOMEM : next(out, align, size);
}
