/* A kiosk in ten lines: runs the job that its first argument is and prints the answer. `examples/kiosk` builds and runs it. */
#include "../include/kanrosuye.h"
#include <stdio.h>
#include <string.h>

int main(int argc, char **argv) {
    const char *job = argc > 1 ? argv[1] : "op=gcd\na=-1 0 1\nb=2 -3 1\n";
    uint8_t answer[KANROSUYE_ANSWER_BYTES];
    size_t n = kanrosuye_job((const uint8_t *)job, strlen(job), answer, sizeof answer);
    size_t place = kanrosuye_place((const uint8_t *)job, strlen(job));
    fwrite(answer, 1, n, stdout);
    if (place != KANROSUYE_NO_PLACE) fprintf(stderr, "malformed at byte %zu\n", place);
    return 0;
}
