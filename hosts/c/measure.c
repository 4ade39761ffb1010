/* measure FILE: how long a text of policies takes, in CPU time: parsed, read whole, and freed. */
#include "testing.h"
#include <time.h>

static double seconds(void) {
    struct timespec at;
    clock_gettime(CLOCK_PROCESS_CPUTIME_ID, &at);
    return (double)at.tv_sec + (double)at.tv_nsec / 1e9;
}

int main(int argc, char **argv) {
    static char text[64 << 20];
    FILE *in = argc > 1 ? fopen(argv[1], "rb") : stdin;
    WANT(in);
    size_t len = fread(text, 1, sizeof text, in);
    for (int round = 0; round < 3; round++) {
        cedar_answer answer = CEDAR_ANSWER_INIT;
        double begun = seconds();
        cedar_parse_policies(text, len, &answer);
        double parsed = seconds();
        uint64_t sum = sum_of(&answer);
        double read = seconds();
        size_t count = answer.policy_count + answer.fault_count;
        cedar_answer_free(&answer);
        double freed = seconds();
        printf("%zu bytes, %zu policies or faults: parsed in %.4f s, read in %.4f, freed in %.4f (%llx)\n", len, count,
               parsed - begun, read - parsed, freed - read, (unsigned long long)sum);
    }
    return 0;
}
