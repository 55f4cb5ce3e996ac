// Matrices of words, halves and bytes: products, transposition, a determinant modulo a prime.
#include "panel.h"

enum { N = 12, MODULUS = 1000003 };

static int32_t left[N][N], right[N][N], product[N][N];
static int16_t halves[N][N];
static uint8_t bytes[N][N];

static uint32_t power(uint32_t base, uint32_t exponent) {
    uint64_t result = 1, square = base;
    for (; exponent != 0; exponent >>= 1) {
        if (exponent & 1) result = result * square % MODULUS;
        square = square * square % MODULUS;
    }
    return (uint32_t)result;
}

static uint32_t determinant(uint32_t a[N][N]) {
    uint64_t result = 1;
    for (int k = 0; k < N; k++) {
        int pivot = k;
        while (pivot < N && a[pivot][k] == 0) pivot++;
        if (pivot == N) return 0;
        if (pivot != k) {
            for (int j = 0; j < N; j++) {
                uint32_t t = a[k][j];
                a[k][j] = a[pivot][j], a[pivot][j] = t;
            }
            result = (MODULUS - result) % MODULUS;
        }
        result = result * a[k][k] % MODULUS;
        uint64_t inverse = power(a[k][k], MODULUS - 2);
        for (int i = k + 1; i < N; i++) {
            uint64_t factor = a[i][k] * inverse % MODULUS;
            for (int j = k; j < N; j++) a[i][j] = (uint32_t)((a[i][j] + (MODULUS - factor) * a[k][j]) % MODULUS);
        }
    }
    return (uint32_t)result;
}

void program(uint32_t *block) {
    static uint32_t residues[N][N];
    for (int i = 0; i < N; i++)
        for (int j = 0; j < N; j++) {
            uint32_t x = block[i * N + j];
            left[i][j] = (int32_t)x >> 8;
            right[i][j] = (int16_t)x;
            halves[i][j] = (int16_t)(x >> 9);
            bytes[i][j] = (uint8_t)(x >> 17);
            residues[i][j] = x % MODULUS;
        }
    for (int i = 0; i < N; i++)
        for (int j = 0; j < N; j++) {
            uint32_t sum = 0;
            int32_t narrow = 0;
            for (int k = 0; k < N; k++) {
                sum += (uint32_t)left[i][k] * (uint32_t)right[k][j];
                narrow += halves[i][k] * bytes[j][k];
            }
            product[j][i] = (int32_t)sum;
            emit(sum);
            emit((uint32_t)narrow);
        }
    for (int i = 0; i < N; i++)
        for (int j = 0; j < N; j++) block[i * N + j] = (uint32_t)product[i][j];
    emit(determinant(residues));
}
