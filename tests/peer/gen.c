// gen PROFILE SEED COUNT [EXPECTED]: writes COUNT files as frames to standard output. File K
// depends on the profile, the seed and K alone. For the profile `broken`, the refusal that
// each file must get goes to the file EXPECTED, in the form in which a peer prints it.
#include <stdio.h>
#include <stdlib.h>
#include <string.h>

#include "profiles.h"

struct profile {
    const char *name;
    void (*make)(struct prng *prng, struct made *made);
};

static const struct profile profiles[] = {
    {"tiny", make_tiny},     {"edge", make_edge},       {"large", make_large}, {"horizon", make_horizon},
    {"broken", make_broken}, {"damaged", make_damaged}, {"long", make_long},
};
enum { PROFILES = sizeof profiles / sizeof profiles[0], MIXED = PROFILES };

static unsigned profile_named(const char *name)
{
    unsigned which = 0;
    while (which < PROFILES && strcmp(profiles[which].name, name) != 0)
        which++;
    if (which == PROFILES && strcmp(name, "mixed") != 0) {
        fprintf(stderr, "gen: no profile %s\n", name);
        exit(2);
    }
    return which;
}

static void write_frame(const struct made *made)
{
    size_t length = made->length;
    uint8_t head[4] = {0, (uint8_t)(length >> 16), (uint8_t)(length >> 8), (uint8_t)length};
    fwrite(head, 1, sizeof head, stdout);
    fwrite(made->bytes, 1, made->length, stdout);
}

static void make_files(unsigned which, uint64_t seed, uint64_t count, FILE *expected)
{
    static struct made made;
    for (uint64_t k = 1; k <= count; k++) {
        struct prng prng = {seed * 0x9e3779b97f4a7c15u + which};
        prng.state = draw(&prng) ^ k * 0xd1342543de82ef95u;
        made.expected = (struct refusal){0, 0, 0};
        unsigned chosen = which == MIXED ? between(&prng, 0, PROFILES - 1) : which;
        profiles[chosen].make(&prng, &made);
        write_frame(&made);
        if (expected != 0)
            fprintf(expected, "file %llu\nrefused %u at %u %u\n", (unsigned long long)k,
                    made.expected.number, made.expected.subsystem, made.expected.task);
    }
}

int main(int count, char **words)
{
    if (count < 4 || count > 5) {
        fprintf(stderr, "usage: gen PROFILE SEED COUNT [EXPECTED]\n");
        return 2;
    }
    FILE *expected = 0;
    if (count == 5 && (expected = fopen(words[4], "w")) == 0) {
        perror(words[4]);
        return 1;
    }
    make_files(profile_named(words[1]), strtoull(words[2], 0, 10), strtoull(words[3], 0, 10), expected);
    if (expected != 0 && fclose(expected) != 0)
        return 1;
    return fflush(stdout) == 0 ? 0 : 1;
}
