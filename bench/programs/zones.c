#include "emit.h"

#define smoke ((volatile int *)0x100000)
#define door ((volatile int *)0x100010)

int alarm(int z) { return smoke[z] >= 70 || smoke[z] < 0; }

void program(int *block) {
    (void)block;
    int n = 0;
    int z = 0;
    while (z < 4) {
        if (alarm(z)) { n = n + 1; EMIT(z); }
        z = z + 1;
    }
    if (n >= 2) { door[0] = 1; door[1] = 1; EMIT(100); }
    else { if (n == 1) { door[0] = 1; } }
}
