// Loaded before a program by LD_PRELOAD: refuses the one allocation whose number REFUSED_ALLOCATION gives, counting from 1, and tells of it
// on standard error. It is compiled without the C library's headers, which need not be on the machine.
typedef unsigned long size;

extern void *__libc_malloc(size);
extern void *__libc_realloc(void *, size);
extern char *getenv(const char *);
extern size strtoul(const char *, char **, int);
extern long write(int, const void *, size);

static size refused;
static size made;

__attribute__((constructor)) static void read_number(void) {
    const char *number = getenv("REFUSED_ALLOCATION");
    refused = number ? strtoul(number, 0, 10) : 0;
    made = 0;
}

static int is_refused(void) {
    static const char told[] = "allocation refused\n";
    if (__atomic_add_fetch(&made, 1, __ATOMIC_SEQ_CST) != refused) return 0;
    write(2, told, sizeof told - 1);
    return 1;
}

void *malloc(size len) {
    return is_refused() ? 0 : __libc_malloc(len);
}

void *realloc(void *block, size len) {
    return is_refused() ? 0 : __libc_realloc(block, len);
}
