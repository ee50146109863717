/* Runs milliseconds_of: for each line with frames and the 64 bits of a rate, in hex, a line with the
 * milliseconds, or with why there are none as a negative number. */
#include <inttypes.h>
#include <stdio.h>

#include "../meter/seconds.h"

int main(void) {
    uint64_t frames, rate, milliseconds;
    enum seconds answer;

    while (scanf("%" SCNx64 " %" SCNx64, &frames, &rate) == 2) {
        answer = milliseconds_of(frames, rate, &milliseconds);
        if (answer == SECONDS_KNOWN)
            printf("%" PRIu64 "\n", milliseconds);
        else
            printf("-%d\n", (int)answer);
    }
    return 0;
}
