/* How the recorder starts with the program's first transaction, and ends with the program. */
#include "recorder.h"
#include <dlfcn.h>
#include <signal.h>
#include <stdarg.h>
#include <stdio.h>
#include <stdlib.h>
#include <sys/mman.h>
#include <unistd.h>

enum { CANNOT_RECORD = 99 };

unsigned pauses;
bool is_buffered;
atomic_bool stopping;

_Noreturn void fail(const char *form, ...) {
    va_list values;
    va_start(values, form);
    fputs("recorder: ", stderr);
    vfprintf(stderr, form, values);
    putc('\n', stderr);
    _exit(CANNOT_RECORD);
}

void *reserve(size_t size) {
    void *at = mmap(0, size, PROT_READ | PROT_WRITE, MAP_PRIVATE | MAP_ANONYMOUS | MAP_NORESERVE, -1, 0);
    if (at == MAP_FAILED) fail("no address space for %zu bytes", size);
    return at;
}

void *next(const char *name) {
    void *entry = dlsym(RTLD_NEXT, name);
    if (!entry) fail("the runtime has no %s", name);
    return entry;
}

void pause_now_and_then(void) {
    static __thread uint32_t random;
    random = (random ? random : (uint32_t)(uintptr_t)&random) * 1664525 + 1013904223;
    if ((random >> 8) % pauses == 0) usleep(random >> 26);
}

/* The first thread that ends the program does so alone. */
static void end_alone(void) {
    static atomic_flag ending = ATOMIC_FLAG_INIT;
    static __thread bool mine;
    while (!mine && atomic_flag_test_and_set(&ending)) pause();
    mine = true;
}

ENTRY void exit(int status) {
    void (*real)(int) = next("exit");
    end_alone();
    real(status);
    __builtin_unreachable();
}

/* Writes the recording up to here, and ends the program, as a signal does. */
_Noreturn void stop_here(int signal) {
    end_alone();
    fprintf(stderr, "recorder: stopped: signal %d\n", signal);
    write_recording();
    _exit(128 + signal);
}

/* The same where no more can be noted. */
_Noreturn void stop_full(const char *why) {
    end_alone();
    fprintf(stderr, "recorder: stopped: %s\n", why);
    write_recording();
    _exit(128);
}

void set_up(void) {
    static const int stops[] = {SIGSEGV, SIGBUS, SIGFPE, SIGILL, SIGABRT, SIGTERM};
    for (size_t i = 0; i < sizeof stops / sizeof *stops; i++) signal(stops[i], stop_here);
    const char *calls = getenv("RECORD_PAUSES");
    const char *most = getenv("RECORD_CALLS"), *writes = getenv("RECORD_WRITES");
    pauses = calls ? atoi(calls) : 0;
    is_buffered = writes && !strcmp(writes, "buffered");
    most_calls = most ? strtoull(most, 0, 10) : UINT64_MAX;
    runtime_begin = next("_ITM_beginTransaction");
    open_order();
    open_space();
}

static void __attribute__((destructor)) program_ends(void) {
    if (thread_count) write_recording();
}
