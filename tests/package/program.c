/* A program of an engine team, in C and in C++: it runs the image that is named. */
#include <sofaduck.h>
#include <stdio.h>

static uint16_t contents[SOFADUCK_CONTENTS], bodies[SOFADUCK_BODIES], stack[1024], cache[SOFADUCK_CACHE];
static uint8_t image[SOFADUCK_IMAGE];

int main(int argc, char **argv) {
    sofaduck_state s = {contents, SOFADUCK_CONTENTS, bodies, SOFADUCK_BODIES, stack, 1024, cache, SOFADUCK_CACHE, {0, 0, 0, 0, 0, 0, 0, 0}};
    FILE *const file = argc == 2 ? fopen(argv[1], "rb") : NULL;
    uint32_t count = 0, reach = 0;
    uint64_t dictionaries = 0;
    if (file == NULL) return 2;
    uint32_t number = sofaduck_state_load(&s, image, fread(image, 1, sizeof image, file));
    fclose(file);
    if (number == 0)
        number = sofaduck_state_begin(&s, s.registers[SOFADUCK_START_RECEIVER], s.registers[SOFADUCK_START_SELECTOR], NULL, 0);
    if (number == 0 && s.registers[SOFADUCK_PHASE] == SOFADUCK_RUNNING) number = sofaduck_state_run(&s, 1000, &count, &reach, &dictionaries);
    if (number != 0) printf("refused: %s\n", sofaduck_refusal_text(number));
    else printf("%s: %d, in %u words of stack, through %u dictionaries\n", sofaduck_phase_text(s.registers[SOFADUCK_PHASE]),
                sofaduck_integer(s.registers[SOFADUCK_VALUE]), (unsigned)reach, (unsigned)dictionaries);
    printf("version %d.%d.%d\n", SOFADUCK_VERSION_MAJOR, SOFADUCK_VERSION_MINOR, SOFADUCK_VERSION_PATCH);
    return number != 0;
}
