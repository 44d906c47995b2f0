// Loaded before a program by LD_PRELOAD: refuses the threads from number REFUSED_THREAD on, counting from 1, or with ONE_THREAD=1 that one alone, as the
// system does where no thread can be made, and tells of each on standard error. It is compiled without the C library's headers, which need not be on the machine.
typedef unsigned long size;
typedef int create(size *, const void *, void *(*)(void *), void *);

extern void *dlsym(void *, const char *);
extern char *getenv(const char *);
extern size strtoul(const char *, char **, int);
extern long write(int, const void *, size);

// Looks behind this library, and the error of a thread for which there is no room (EAGAIN).
#define NEXT ((void *)-1L)
#define NO_ROOM 11

static size refused;
static int one;
static size made;

__attribute__((constructor)) static void read_number(void) {
    const char *number = getenv("REFUSED_THREAD");
    refused = number ? strtoul(number, 0, 10) : 0;
    one = getenv("ONE_THREAD") != 0;
    made = 0;
}

int pthread_create(size *thread, const void *attributes, void *(*start)(void *), void *argument) {
    static const char told[] = "thread refused\n";
    size number = __atomic_add_fetch(&made, 1, __ATOMIC_SEQ_CST);
    if (refused && (one ? number == refused : number >= refused)) {
        write(2, told, sizeof told - 1);
        return NO_ROOM;
    }
    create *next = (create *)dlsym(NEXT, "pthread_create");
    return next ? next(thread, attributes, start, argument) : NO_ROOM;
}
