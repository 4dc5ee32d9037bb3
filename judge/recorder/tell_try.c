/* An attempt, as the recording has it: lines of a history, but for the range of its position. */
#include "tell.h"

static unsigned long long numbered(size_t place) {
    return 8ull * words[place / 8].number + place % 8;
}

static const char *named(uint32_t props) {
    bool no_abort = props & NO_ABORT;
    if (props & GOES_IRREVOCABLE) return no_abort ? "pr_hasNoAbort+pr_doesGoIrrevocable" : "pr_doesGoIrrevocable";
    if (props & NO_IRREVOCABLE) return no_abort ? "pr_hasNoAbort+pr_hasNoIrrevocable" : "pr_hasNoIrrevocable";
    return no_abort ? "pr_hasNoAbort" : "-";
}

/* A barrier, or an access to the thread's own memory, which is told by its place in the arena. */
static void tell_access(const struct event *e) {
    bool reads = e->kind == READ || e->kind == LOAD, shared = e->kind <= WRITE;
    fprintf(out, "call %s %llu%s", e->name, shared ? numbered(e->a) : e->a, reads ? " = " : " ");
    tell_hex(e->data, e->size);
    fputs(reads ? "\n" : " = ok\n", out);
}

static void tell_log(const struct event *e) {
    bool has_size = !strcmp(e->name, "_ITM_LB") || strchr(e->name, 'E'); /* a history has no long double */
    if (has_size) fprintf(out, "call _ITM_LB %llu %u = ok\n", (unsigned long long)e->a, e->size);
    else fprintf(out, "call %s %llu = ok\n", e->name, (unsigned long long)e->a);
}

static void tell_call(const struct event *e) {
    switch (e->kind) {
    case BEGIN: fprintf(out, "call _ITM_beginTransaction %s = code 5\n", named(e->a)); break;
    case COMMIT: fputs("call _ITM_commitTransaction = ok\n", out); break;
    case ABORT: {
        const char *outer = e->a & OUTER_ABORT ? "+outerAbort" : "";
        fprintf(out, "call _ITM_abortTransaction userAbort%s = code 24\n", outer);
        break;
    }
    case MODE: fputs("call _ITM_changeTransactionMode modeSerialIrrevocable = ok\n", out); break;
    case LOG: tell_log(e); break;
    case COPY:
        fprintf(out, "call %s %llu %llu %u = ", e->name, numbered(e->a), numbered(e->b), e->size);
        tell_hex(e->data, e->size);
        putc_unlocked('\n', out);
        break;
    case SET: fprintf(out, "call %s %llu %u %u = ok\n", e->name, numbered(e->a), (unsigned)e->b, e->size); break;
    default: tell_access(e);
    }
}

static void tell_arena(const struct try *try) {
    bool some = false;
    fputs("arena ", out);
    for (const struct event *e = try->from; e != try->end; e = event_after(e)) {
        if (e->kind != LOG || !e->b) continue;
        tell_hex(e->data, e->size);
        some = true;
    }
    fputs(some ? "\n" : "-\n", out);
}

void tell_try(const struct try *try) {
    const struct event *from = try->from, *end = try->end;
    fprintf(out, "attempt %d %d %llu %llu %s %s\n", try->thread, (int)from->b, (unsigned long long)try->low,
            (unsigned long long)try->high, try->outcome, named(from->a));
    tell_arena(try);
    for (const struct event *e = event_after(from); e != end; e = event_after(e)) tell_call(e);
    if (!strcmp(try->outcome, "committing")) fputs("call _ITM_commitTransaction = ok\n", out);
    fputs("end\n", out);
}
