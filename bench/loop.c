// Times runs, ours, C's and Lua's by turns; the least of all runs counts. After each program the library and its C peer have to agree in
// registers, counts, reaches, dictionaries and every word of the four buffers. Objects are never reclaimed, so each turn starts from the words as they
// were loaded. Arguments: a file to which the goals are added, and the command of Lua if there is one.
#include "machine.h"
#include "measure.h"
#include "programs.h"
#include <stdio.h>
#include <string.h>

enum { CONTENTS = 4 * 2047, BODIES = 24000, STACK = 4096, CACHE = CACHE_WORDS, RUNS = 20, LUA_RUNS = 10 };

void bench_table(uint16_t *table);

static uint16_t entries[256];
static uint8_t image[MOST_IMAGE];
static uint16_t words[3][CONTENTS + BODIES + STACK + CACHE];
static machine begun, ours, theirs;

// Processor time, as Lua's clock gives it.
static double now(void) { return nanoseconds(CLOCK_PROCESS_CPUTIME_ID); }

static machine on(uint16_t *at) {
    return (machine){at, CONTENTS, at + CONTENTS, BODIES, at + CONTENTS + BODIES, STACK, at + CONTENTS + BODIES + STACK, CACHE, {0}};
}

static void copy(machine *to, const machine *from) {
    memcpy(to->contents, from->contents, sizeof words[0]);
    memcpy(to->registers, from->registers, sizeof to->registers);
}

typedef struct {
    uint32_t number, count, reach;
    uint64_t dictionaries;
} outcome;

// A program run to its end, so many bytecodes granted at a time. Count, reach and dictionaries are added up over all runs.
static outcome whole(machine *m, bool peer, uint32_t grant) {
    outcome r = {0};
    while (r.number == 0 && m->registers[PHASE] == 1) {
        uint32_t count = 0, reach = 0;
        uint64_t dictionaries = 0;
        r.number = peer ? c_run(entries, m, grant, &count, &reach, &dictionaries) : sofaduck_state_run(m, grant, &count, &reach, &dictionaries);
        r.count += count;
        r.reach += reach;
        r.dictionaries += dictionaries;
    }
    return r;
}

static bool alike(const char *name, outcome r, outcome s) {
    if (r.number == 0 && s.number == 0 && ours.registers[PHASE] == 2 && r.count == s.count && r.reach == s.reach
        && r.dictionaries == s.dictionaries && memcmp(words[1], words[2], sizeof words[1]) == 0
        && memcmp(ours.registers, theirs.registers, sizeof ours.registers) == 0)
        return true;
    printf("%s: the runs differ, or do not finish: answers %u and %u, phases %u and %u, counts %u and %u, reaches %u and %u, dictionaries %ju and %ju\n",
           name, r.number, s.number, ours.registers[PHASE], theirs.registers[PHASE], r.count, s.count, r.reach, s.reach, (uintmax_t)r.dictionaries,
           (uintmax_t)s.dictionaries);
    return false;
}

static const double FAILED = 1e18; // a time that none is above

static double lua_time(const char *lua, const char *name) {
    char command[200];
    double seconds = 0;
    snprintf(command, sizeof command, "%s bench/loops.lua %s", lua, name);
    FILE *from = popen(command, "r");
    const bool read = from != NULL && fscanf(from, "%lf", &seconds) == 1;
    const bool fine = from != NULL && pclose(from) == 0 && read;
    return fine ? seconds * 1e9 : FAILED;
}

typedef struct {
    const char *name;
    size_t (*make)(uint8_t *);
    const char *lua[2]; // what Lua does for it, named by the first
} program;

static bool measure(const program *p, const char *lua, FILE *goals) {
    static const uint32_t grants[2] = {1000000, 1000};
    double a[2] = {FAILED, FAILED}, b[2] = {FAILED, FAILED}, l[2] = {FAILED, FAILED};
    outcome r = {0}, s = {0};
    memset(words, 0, sizeof words);
    begun = on(words[0]), ours = on(words[1]), theirs = on(words[2]);
    const uint32_t loaded = sofaduck_state_load(&begun, image, p->make(image));
    const uint16_t *const start = begun.registers + START_RECEIVER;
    const uint32_t number = loaded != 0 ? loaded : sofaduck_state_begin(&begun, start[0], start[1], NULL, 0);
    if (number != 0) return printf("%s: refused by %u\n", p->name, number), false;
    for (int run = 0; run < RUNS; run++) {
        for (int g = 0; g < 2; g++) {
            copy(&ours, &begun);
            copy(&theirs, &begun);
            const double t0 = now();
            r = whole(&ours, false, grants[g]);
            const double t1 = now();
            s = whole(&theirs, true, grants[g]);
            const double t2 = now();
            least(a + g, t1 - t0), least(b + g, t2 - t1);
            if (!alike(p->name, r, s)) return false;
        }
        for (int k = 0; k < 2; k++)
            if (lua != NULL && run < LUA_RUNS && p->lua[k] != NULL) least(l + k, lua_time(lua, p->lua[k]));
    }
    for (int g = 0; g < 2; g++)
        printf("run %-10s %7u bytecodes, %7u at a time   ours %6.2f ns each   C %6.2f   speed relative to C: %.2f\n", p->name, r.count,
               grants[g], a[g] / r.count, b[g] / r.count, b[g] / a[g]);
    for (int k = 0; k < 2 && lua != NULL && p->lua[k] != NULL; k++) {
        if (l[k] == FAILED) {
            printf("run %-10s %s fails on bench/loops.lua: left out\n", p->name, lua);
            continue;
        }
        printf("run %-10s against Lua (%s)   ours %6.2f ms   Lua %6.2f ms   speed relative to Lua: %.2f\n", p->name, p->lua[k], a[0] / 1e6,
               l[k] / 1e6, l[k] / a[0]);
    }
    if (p->make == proxy_image) {
        const double made = ours.registers[N] - begun.registers[N];
        if (made != 2 * PROXY_SENDS) return printf("%s: %.0f objects are made\n", p->name, made), false;
        printf("run %-10s millions a second, bytecodes: ours %.0f, C %.0f; objects made: ours %.1f, C %.1f; a turn with one send that fails: "
               "ours %.0f ns, C %.0f\n",
               p->name, 1e3 * r.count / a[0], 1e3 * r.count / b[0], 1e3 * made / a[0], 1e3 * made / b[0], a[0] / PROXY_SENDS, b[0] / PROXY_SENDS);
        return true;
    }
    if (goals == NULL || p->lua[0] == NULL) return true;
    fprintf(goals, "goal: run %s at C's speed: %.2f, %s\n", p->name, b[0] / a[0], verdict(b[0] >= a[0]));
    if (l[0] != FAILED && p->make == fib_image)
        fprintf(goals, "goal: run %s level with Lua: %.2f of Lua's speed, %s\n", p->name, l[0] / a[0], verdict(l[0] >= a[0]));
    return true;
}

int main(int count, char **arguments) {
    static const program programs[] = {
        {"fib", fib_image, {"fib", "functions"}},
        {"stores", stores_image, {"stores", NULL}},
        {"arithmetic", arithmetic_image, {"arithmetic", NULL}},
        {"climbing", climbing_fib_image, {NULL, NULL}},
        {"proxy", proxy_image, {NULL, NULL}},
    };
    FILE *goals = count > 1 ? fopen(arguments[1], "a") : NULL;
    bench_table(entries);
    for (size_t i = 0; i < sizeof programs / sizeof *programs; i++)
        if (!measure(programs + i, count > 2 ? arguments[2] : NULL, goals)) return 1;
    if (goals != NULL) fclose(goals);
    return 0;
}
