/* Each allocation of a test case is refused in turn. The library's three functions of memory are these here. A call that answers
   FILSKEAM_NO_MEMORY has changed neither the history nor the room, and can be made again. No block is left at the end. */
#include <stdint.h>
#include <stdio.h>
#include <stdlib.h>
#include <string.h>

#include "filskeam.h"

typedef struct { size_t ok; void *p; } tried;
static size_t count, fails_at, refusals;
static long live;

static tried answer(void *p) { tried t = { p != NULL, p ? p : (void *)16 }; return t; }
static bool refused(void) { return ++count == fails_at; }

tried rattle_alloc(size_t n, size_t align) {
    if (refused()) return answer(NULL);
    ++live;
    return answer(malloc(n ? n : align));
}
tried rattle_realloc(void *p, size_t kept, size_t n, size_t align) {
    (void)kept;
    return refused() ? answer(NULL) : answer(realloc(p, n ? n : align));
}
void rattle_dealloc(void *p) { --live; free(p); }

static int failed;
#define CHECK(x) do { if (!(x)) { printf("line %d, allocation %zu: %s\n", __LINE__, fails_at, #x); failed = 1; } } while (0)

static const char *const moves[] = { "0 create alive", "0 create named pump", "0 start 1 1", "0 start 2 2", "1 setverdict fail", "2 finish",
                                     "0 done all", "1 finish", "0 wait done 1", "0 kill all", "0 finish" };

/* The history, which is asked for until there is memory for it. */
static size_t history(filskeam_case *place, char *text, size_t room) {
    size_t size = 0;
    memset(text, '#', room);
    uint8_t number = filskeam_history(place, "t", 1, text, room, &size);
    if (number == FILSKEAM_NO_MEMORY) {
        ++refusals;
        CHECK(text[0] == '#' && size == 0);
        number = filskeam_history(place, "t", 1, text, room, &size);
    }
    CHECK(number == FILSKEAM_DONE);
    return size;
}

static void play(filskeam_case *place, const char *move) {
    static char before[4096], after[4096];
    char room[FILSKEAM_REPLY], would[FILSKEAM_REPLY];
    size_t size = history(place, before, sizeof before), told = 0, is = 0;
    CHECK(filskeam_would(place, move, strlen(move), would, sizeof would, &told) == FILSKEAM_DONE);
    memset(room, '#', sizeof room);
    uint8_t number = filskeam_play(place, move, strlen(move), room, sizeof room, &is);
    if (number == FILSKEAM_NO_MEMORY) {
        ++refusals;
        CHECK(room[0] == '#' && is == 0);
        CHECK(history(place, after, sizeof after) == size && !memcmp(before, after, size));
        number = filskeam_play(place, move, strlen(move), room, sizeof room, &is);
    }
    CHECK(number == FILSKEAM_DONE && is == told && !memcmp(room, would, is));
}

/* One test case, whose allocation of this number is refused; how many there were. */
static size_t run(size_t at) {
    filskeam_case place = FILSKEAM_CLOSED;
    count = 0;
    fails_at = at;
    if (filskeam_open(&place, 3) == FILSKEAM_NO_MEMORY) {
        ++refusals;
        CHECK(filskeam_is_over(&place) == FILSKEAM_NONE && live == 0);
        CHECK(filskeam_open(&place, 3) == FILSKEAM_DONE);
    }
    for (size_t i = 0; i < sizeof moves / sizeof *moves; i++) play(&place, moves[i]);
    CHECK(filskeam_is_over(&place) == 1 && filskeam_overall(&place) == 3);
    CHECK(filskeam_close(&place) == FILSKEAM_DONE && live == 0);
    return count;
}

int main(void) {
    const size_t most = run(0);
    for (size_t at = 1; at <= most; at++) run(at);
    CHECK(refusals == most && most >= 40);
    printf("%zu allocations, each refused\n", most);
    return failed;
}
