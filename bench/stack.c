/* How much stack a call of the boundary takes, by a painted stack: `stack FILE...` runs each call on each load file in a thread whose stack was
 * painted before, and prints for each call the most bytes that any of the files made it touch, less what the thread takes by itself. */
#include <pthread.h>
#include <stdio.h>
#include <stdlib.h>
#include <string.h>

#include "waikurpeho.h"

#define STACK (4u << 20)
#define PAINT 0xA5
/* room for the most findings that a sheet can have, so that they are written in one pass: check_words, `roomFor` */
#define WORDS (WK_WORDS * (6u * WK_MOST_LINES + WK_MOST_LINES * WK_MOST_LINES / 2 + WK_MOST_KINDS + WK_MOST_UNPLACED + 1))

static unsigned char file[WK_MOST_BYTES + 1], out[WK_MOST_BYTES];
static uint64_t words[WORDS], figures[2];
static size_t length;

static void *nothing(void *unused) { return unused; }

static void *check(void *unused) {
    wk_check(file, length, words, WORDS);
    return unused;
}

static void *plan_points(void *unused) {
    wk_plan_points(file, length, UINT64_MAX, out, sizeof out, figures);
    return unused;
}

static void *plan_layers(void *unused) {
    wk_plan_layers(file, length, UINT64_MAX, out, sizeof out, figures);
    return unused;
}

static void *fill(void *unused) {
    wk_fill(file, length, words);
    return unused;
}

static size_t touched(void *(*call)(void *), unsigned char *stack) {
    pthread_attr_t attr;
    pthread_t thread;
    size_t low = 0;
    memset(stack, PAINT, STACK);
    if (pthread_attr_init(&attr) || pthread_attr_setstack(&attr, stack, STACK) || pthread_create(&thread, &attr, call, NULL) || pthread_join(thread, NULL)) {
        fprintf(stderr, "stack: no thread\n");
        exit(2);
    }
    while (low < STACK && stack[low] == PAINT)
        low++;
    return STACK - low;
}

int main(int count, char **names) {
    static const struct {
        const char *name;
        void *(*call)(void *);
    } calls[] = {{"wk_check", check}, {"wk_plan_points", plan_points}, {"wk_plan_layers", plan_layers}, {"wk_fill", fill}};
    unsigned char *stack;
    if (posix_memalign((void **)&stack, 4096, STACK))
        return 2;
    for (size_t c = 0; c < sizeof calls / sizeof calls[0]; c++) {
        size_t most = 0, own = touched(nothing, stack);
        for (int i = 1; i < count; i++) {
            FILE *f = fopen(names[i], "rb");
            if (!f) {
                perror(names[i]);
                return 2;
            }
            length = fread(file, 1, sizeof file, f);
            fclose(f);
            size_t t = touched(calls[c].call, stack);
            if (t > most)
                most = t;
        }
        printf("%s %zu\n", calls[c].name, most > own ? most - own : 0);
    }
    return 0;
}
