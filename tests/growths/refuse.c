/* Loaded before a program: counts the growths that the program itself asks the C library for, and refuses the one of the number in
   REFUSE, and only it. At the end the count is written to the file that COUNTED named. What the C library allocates for itself isn't
   counted. It takes no header, so the toolchain's clang compiles it alone: what is declared is as on Linux with 64 bits. */
typedef unsigned long size_t;

extern void *__libc_malloc(size_t);
extern void *__libc_calloc(size_t, size_t);
extern void *__libc_realloc(void *, size_t);
extern void *__libc_memalign(size_t, size_t);
extern int *__errno_location(void);
extern char *getenv(const char *);
extern unsigned long strtoul(const char *, char **, int);
extern unsigned long getauxval(unsigned long);
extern int open(const char *, int, ...);
extern long write(int, const void *, size_t);
extern int snprintf(char *, size_t, const char *, ...);
extern void _exit(int);

enum { ENOMEM = 12, O_WRONLY = 1, O_TRUNC = 512, AT_PHDR = 3, AT_PHNUM = 5, PT_LOAD = 1, PT_PHDR = 6 };

/* A program header: a part of the program, and where it lies from its beginning on. */
struct header {
    unsigned type, flags;
    unsigned long offset, address, physical, in_file, length, align;
};

static unsigned long count, refused, first, past;

/* Finds where the program itself lies. */
__attribute__((constructor)) static void begin(void) {
    const char *number = getenv("REFUSE");
    const struct header *headers = (const struct header *)getauxval(AT_PHDR);
    unsigned long parts = getauxval(AT_PHNUM), base = 0;
    refused = number ? strtoul(number, 0, 10) : 0;
    for (unsigned long part = 0; part < parts; part += 1)
        if (headers[part].type == PT_PHDR) base = (unsigned long)headers - headers[part].address;
    for (unsigned long part = 0; part < parts; part += 1) {
        if (headers[part].type != PT_LOAD) continue;
        unsigned long from = base + headers[part].address, to = from + headers[part].length;
        if (past == 0 || from < first) first = from;
        if (to > past) past = to;
    }
}

__attribute__((destructor)) static void end(void) {
    char text[32];
    const char *name = getenv("COUNTED");
    int file = name ? open(name, O_WRONLY | O_TRUNC) : -1;
    int length = snprintf(text, sizeof text, "%lu\n", count);
    if (file >= 0 && write(file, text, length) != length) _exit(99);
}

static int is_refused(const void *caller) {
    if ((unsigned long)caller < first || (unsigned long)caller >= past) return 0;
    count += 1;
    if (count == refused) *__errno_location() = ENOMEM;
    return count == refused;
}

#define OF(call) (is_refused(__builtin_return_address(0)) ? 0 : (call))

void *malloc(size_t size) { return OF(__libc_malloc(size)); }
void *calloc(size_t many, size_t size) { return OF(__libc_calloc(many, size)); }
void *realloc(void *old, size_t size) { return OF(__libc_realloc(old, size)); }
void *memalign(size_t align, size_t size) { return OF(__libc_memalign(align, size)); }
void *aligned_alloc(size_t align, size_t size) { return OF(__libc_memalign(align, size)); }
int posix_memalign(void **to, size_t align, size_t size) {
    if (is_refused(__builtin_return_address(0))) return ENOMEM;
    *to = __libc_memalign(align, size);
    return *to ? 0 : ENOMEM;
}
