/* The loop of crates/cpu_bench in C: in each turn the value is multiplied, added to and wrapped to 32 bits. */

#include <inttypes.h>
#include <stdio.h>
#include <stdlib.h>

int main(int argc, char **argv)
{
    if (argc != 2)
        return 2;
    int64_t turns = strtoll(argv[1], NULL, 10);
    int64_t value = 1;
    int64_t turn = 0;
    do {
        value = (int32_t)(value * 1103515245 + 12345);
        turn = turn + 1;
    } while (turn < turns);
    printf("%" PRId64 "\n", value);
    return 0;
}
