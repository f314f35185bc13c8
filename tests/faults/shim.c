/* Put before the C library's read and write (ld.so --preload): one call goes wrong as the variable FAULT says, from 1 on.
 *   FAULT="read N 5"       the N-th read fails, with that errno
 *   FAULT="read N intr"    the N-th read is interrupted by a signal before it moves a byte; of N = 0, every other read is
 *   FAULT="read N one"     the N-th read moves one byte only; of N = 0, every read
 *   FAULT="read N end"     the N-th read says that the input has ended, whether or not it has
 * and the same of write. Where the variable COUNT has a descriptor's number, how many reads and writes there were is written
 * there at the end, as "R W". It is compiled without headers, for x86-64 Linux. */
typedef unsigned long size;
typedef long ssize;
extern int *__errno_location(void);
extern char *getenv(const char *);
extern long syscall(long, ...);

static unsigned long reads, writes;

static unsigned long number(const char **at) {
    unsigned long n = 0;
    while (**at == ' ') ++*at;
    while (**at >= '0' && **at <= '9') n = 10 * n + (unsigned long)(*(*at)++ - '0');
    while (**at == ' ') ++*at;
    return n;
}

static ssize fails(int error) {
    *__errno_location() = error;
    return -1;
}

static ssize call(long kind, unsigned long turn, int fd, void *bytes, size count) {
    const char *fault = getenv("FAULT");
    if (fault && *fault == (kind ? 'w' : 'r')) {
        const char *at = fault + (kind ? 5 : 4);
        unsigned long n = number(&at);
        int every = n == 0;
        if (*at == 'o') {
            if ((every || n == turn) && count > 1) count = 1;
        } else if (*at == 'i') {
            if (n == turn || (every && turn % 2 == 1)) return fails(4);
        } else if (n == turn) {
            if (*at == 'e') return 0;
            return fails((int)number(&at));
        }
    }
    return syscall(kind, fd, bytes, count);
}

ssize read(int fd, void *bytes, size count) { return call(0, ++reads, fd, bytes, count); }

ssize write(int fd, const void *bytes, size count) { return call(1, ++writes, fd, (void *)bytes, count); }

static void tell(unsigned long n, char end, int fd) {
    char text[24];
    int at = 23;
    text[at] = end;
    do text[--at] = (char)('0' + n % 10);
    while (n /= 10);
    syscall(1, fd, text + at, (size)(24 - at));
}

__attribute__((destructor)) static void count(void) {
    const char *at = getenv("COUNT");
    if (!at) return;
    int fd = (int)number(&at);
    tell(reads, ' ', fd);
    tell(writes, '\n', fd);
}
