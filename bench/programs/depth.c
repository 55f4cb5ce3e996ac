#include "emit.h"

int f(int n) {
    if (n == 0) return 0;
    else return 1 + f(n - 1);
}

void program(int *block) {
    (void)block;
    EMIT(f(62));
}
