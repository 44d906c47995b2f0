// Loaded by LD_PRELOAD before the program of ./test soak scarce, which says by the size of an allocation which ones are refused from then on: of 7,000,000 bytes, none;
// of 7,000,001, those of exactly 1,777 bytes; of 7,000,002, all. These themselves are granted. It is compiled without the C library's headers, which need not
// be on the machine.
typedef unsigned long size;

extern void *__libc_malloc(size);
extern void *__libc_realloc(void *, size);

enum { NONE = 7000000, LONG = 7000001, ALL = 7000002, LENGTH = 1777 };

static size refused;

static int is_refused(size len) {
    if (len >= NONE && len <= ALL) {
        __atomic_store_n(&refused, len, __ATOMIC_SEQ_CST);
        return 0;
    }
    switch (__atomic_load_n(&refused, __ATOMIC_SEQ_CST)) {
        case LONG: return len == LENGTH;
        case ALL: return 1;
        default: return 0;
    }
}

void *malloc(size len) {
    return is_refused(len) ? 0 : __libc_malloc(len);
}

void *realloc(void *block, size len) {
    return is_refused(len) ? 0 : __libc_realloc(block, len);
}
