/* What the program calls of its system, in a browser: one thread, no files, no clock. Standard input, standard output,
   the words and the end of a run are the page's; whatever else is asked for isn't there, as on a system that lacks
   it. */
typedef unsigned long long u64;
typedef long long i64;
typedef unsigned char u8;

#define OF_PAGE(name) __attribute__((import_module("page"), import_name(name)))
OF_PAGE("read") i64 page_read(u64 at, u64 room);
OF_PAGE("write") void page_write(int file, u64 at, u64 count);
OF_PAGE("words") i64 page_words(void);
OF_PAGE("word") i64 page_word(u64 number, u64 at, u64 room);
OF_PAGE("exit") void page_exit(int status);

enum { NO_SUCH_FILE = 2, TRY_LATER = 11, PAGE_SIZE_NAME = 30, SECONDS_A_CALL = 1 };

static int error;
int rattle_errno(void) { return error; }
void rattle_set_errno(int code) { error = code; }

/* Standard input, standard output and standard error. */
i64 read(int file, u8 *at, u64 room) { return file == 0 ? page_read((u64)at, room) : -1; }
i64 write(int file, const u8 *at, u64 count) {
    page_write(file, (u64)at, count);
    return (i64)count;
}
i64 __write(int file, const u8 *at, u64 count) { return write(file, at, count); }
/* Standard error is a screen: a run draws there how far it has come. */
int isatty(int file) { return file == 2; }
int open(const u8 *path, int flags, ...) {
    error = NO_SUCH_FILE;
    return -1;
}
int close(int file) { return 0; }

/* The words, and no environment. */
u64 rattle_arg_count(void) { return (u64)page_words(); }
i64 rattle_arg(u64 number, u8 *at, u64 room) { return page_word(number, (u64)at, room); }
i64 rattle_env(const u8 *name, u8 *at, u64 room) { return -1; }
i64 rattle_env_at(u64 number, u8 *at, u64 room) { return -1; }

/* The end of a run: the page's function throws, so that nothing comes after it. */
void _exit(int status) {
    page_exit(status);
    __builtin_trap();
}
void abort(void) { __builtin_trap(); }

/* One processor, and a clock that goes on at each look: nothing that is written depends on it. */
int clock_gettime(int clock, u64 *time) {
    static u64 seconds;
    time[0] = seconds += SECONDS_A_CALL;
    time[1] = 0;
    return 0;
}
i64 sysconf(int name) { return name == PAGE_SIZE_NAME ? 4096 : 1; }
int sched_getaffinity(int process, u64 size, u8 *processors) {
    for (u64 k = 0; k < size; k++) processors[k] = k == 0;
    return 0;
}
int sched_yield(void) { return 0; }

/* No thread can be made, so `--workers 1` is what the page asks for, and a run draws its progress by itself. */
int pthread_create(u64 *thread, void *how, void *start, void *with) { return TRY_LATER; }
int pthread_attr_init(void *how) { return 0; }
int pthread_attr_setguardsize(void *how, u64 size) { return 0; }
int pthread_attr_setstacksize(void *how, u64 size) { return 0; }
int pthread_attr_destroy(void *how) { return 0; }
u64 pthread_self(void) { return 1; }
int pthread_detach(u64 thread) { return 0; }
int pthread_join(u64 thread, void **result) { return 0; }
i64 syscall(i64 number, void *at, i64 what, i64 value, void *time, ...) { return 0; }
i64 __sysv_signal(int number, i64 handler) { return 0; }

/* The program asks at its start whether the processor is the x86-64 that it was made for: here each answer is yes. */
void *__x86_get_cpuid_feature_leaf(int leaf) {
    static unsigned yes[16];
    for (int k = 0; k < 16; k++) yes[k] = ~0u;
    return yes;
}
