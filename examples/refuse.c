// A heap that refuses the requests that a program under test asks it to refuse, and that tells whether more than so
// many bytes were asked for at once.
// cc -O2 -shared -fPIC -o refuse.so refuse.c -ldl; LD_PRELOAD=./refuse.so PROGRAM
#define _GNU_SOURCE
#include <dlfcn.h>
#include <stddef.h>
static const size_t REFUSE = 0x1000000000000000, ASK = 0x2000000000000000, MORE = 0x4000000000000000;
static size_t left, most; static int was;
static int refused(size_t n) {
    if (n > most) most = n;
    if (left && --left == 0) { was = 1; return 1; }
    return 0;
}
void *malloc(size_t n) {
    static void *(*real)(size_t);
    if (!real) real = (void *(*)(size_t))dlsym(RTLD_NEXT, "malloc");
    if (n == ASK) return was ? real(16) : NULL;
    if (n >= MORE && n - MORE <= 0xffffffff) { int more = most > n - MORE; most = 0; return more ? real(16) : NULL; }
    if (n >= REFUSE && n < ASK) { left = n - REFUSE; if (left) was = 0; return NULL; }
    return refused(n) ? NULL : real(n);
}
void *realloc(void *p, size_t n) {
    static void *(*real)(void *, size_t);
    if (!real) real = (void *(*)(void *, size_t))dlsym(RTLD_NEXT, "realloc");
    return refused(n) ? NULL : real(p, n);
}
