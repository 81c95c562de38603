/* A heap that refuses, in place of the one that a program is linked with.

   It counts the calls for memory between the lines `begin` and `end` that the program writes. Before a call that is to be refused it forks:
   the child is refused, and goes on to the program's end; its parent waits for it, and then gets the memory. So one run of the program
   tries each call, and what was before it is played once. A child says first `run N once`, or `run N from` where all behind the call are
   refused, too. Behind what it printed stands `ran S`, where S is 0, the signal that ended it, or 256 where its status was another.

   REFUSE has four numbers, FIRST STEP KINDS SECONDS: the calls FIRST, FIRST + STEP, .. are refused, or FIRST alone where STEP is 0. KINDS
   is 1 for each alone, 2 for each with all behind it, 3 for both. A child that is not done after SECONDS is ended. Without REFUSE nothing
   is refused. Before `end` the program's own run says `calls M`. */
typedef unsigned long size;
struct found {
    unsigned is_some;
    void *at;
};
extern void *malloc(size), *realloc(void *, size);
extern void free(void *), _exit(int);
extern char *getenv(const char *);
extern int fork(void), waitpid(int, int *, int), memcmp(const void *, const void *, size);
extern int snprintf(char *, size, const char *, ...), sscanf(const char *, const char *, ...);
extern unsigned alarm(unsigned);
extern long syscall(long, ...);

enum { WRITE = 1, STDOUT = 1 };
static char nothing[16];
static size calls, first, step, kinds, seconds;
static int counts, is_child, refuses_all;

static void say(const char *text, size number, const char *more) {
    char line[64];
    syscall(WRITE, STDOUT, line, (size)snprintf(line, sizeof line, "%s %lu%s\n", text, number, more));
}

__attribute__((constructor)) static void asked(void) {
    const char *text = getenv("REFUSE");
    if (text && sscanf(text, "%lu %lu %lu %lu", &first, &step, &kinds, &seconds) != 4) _exit(124);
}

/* Tries the call that is asked for, with all behind it or alone: whether this is the child, which is refused. */
static int is_tried(int all) {
    int status = 0, child = fork();
    if (child < 0) _exit(125);
    if (!child) {
        alarm((unsigned)seconds);
        is_child = 1;
        refuses_all = all;
        say("run", calls, all ? " from" : " once");
        return 1;
    }
    while (waitpid(child, &status, 0) < 0) {}
    say("ran", status & 127 ? status & 127 : status ? 256 : 0, "");
    return 0;
}

static int is_refused(void) {
    if (!counts) return 0;
    calls++;
    if (is_child) return refuses_all;
    if (!first || calls < first || (step ? (calls - first) % step : calls - first)) return 0;
    return (kinds & 1 && is_tried(0)) || (kinds & 2 && is_tried(1));
}

long write(int to, const void *text, size length) {
    if (to == STDOUT && length == 6 && !memcmp(text, "begin\n", 6)) counts = 1;
    if (to == STDOUT && length == 4 && !memcmp(text, "end\n", 4)) {
        counts = 0;
        if (!is_child) say("calls", calls, "");
    }
    return syscall(WRITE, to, text, length);
}

struct found rattle_alloc(size bytes, size align) {
    void *at = is_refused() ? 0 : malloc(bytes ? bytes : align);
    return (struct found){at != 0, at ? at : nothing};
}

struct found rattle_realloc(void *old, size before, size bytes, size align) {
    void *at = is_refused() ? 0 : realloc(old, bytes ? bytes : align);
    return (struct found){at != 0, at ? at : nothing};
}

void rattle_dealloc(void *at, size bytes, size align) {
    free(at);
}
