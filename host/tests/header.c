/* What tight.h says, for the test in header.rs. Lines of standard input: `L` and four counts, for which
   it prints the least lengths of buffers 0 to 9; `A` and an answer, for which it prints its parts. */
#include <inttypes.h>
#include <stdio.h>
#include "tight.h"

int main(void) {
    char what;
    while (scanf(" %c", &what) == 1) {
        if (what == 'L') {
            uint64_t a, n, o, r;
            int buffer;
            if (scanf("%" SCNu64 "%" SCNu64 "%" SCNu64 "%" SCNu64, &a, &n, &o, &r) != 4) {
                return 1;
            }
            for (buffer = 0; buffer < 10; buffer++) {
                printf("%zu ", tight_least_length(buffer, a, n, o, r));
            }
        } else {
            uint64_t answer;
            if (scanf("%" SCNu64, &answer) != 1) {
                return 1;
            }
            printf("%d %" PRIu32 " %" PRIu32 " %zu %d %" PRIu32 " %" PRIu32, tight_refusal(answer),
                   tight_place(answer), tight_body(answer), tight_producers(answer), tight_verdict(answer),
                   tight_root_or_atom(answer), tight_visited(answer));
        }
        printf("\n");
    }
    return 0;
}
