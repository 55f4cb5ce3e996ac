#include "emit.h"

int gcd(int a, int b) {
    while (b != 0) { int t = a % b; a = b; b = t; }
    return a;
}

void program(int *block) {
    (void)block;
    EMIT(gcd(12, 18));
    EMIT(gcd(-12, 18));
    EMIT(gcd(5, 0));
}
