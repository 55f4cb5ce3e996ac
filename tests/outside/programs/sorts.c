// Sorting by insertion, Shell's gaps, heap, quicksort and merging, signed and unsigned, each on its part of the block.
#include "panel.h"

static void insertion(int32_t *a, int n) {
    for (int i = 1; i < n; i++) {
        int32_t x = a[i];
        int j = i;
        for (; j > 0 && a[j - 1] > x; j--) a[j] = a[j - 1];
        a[j] = x;
    }
}

static void shell(uint32_t *a, int n) {
    for (int gap = n / 2; gap > 0; gap /= 2)
        for (int i = gap; i < n; i++) {
            uint32_t x = a[i];
            int j = i;
            for (; j >= gap && a[j - gap] > x; j -= gap) a[j] = a[j - gap];
            a[j] = x;
        }
}

static void sift(int32_t *a, int root, int n) {
    for (;;) {
        int child = 2 * root + 1;
        if (child >= n) return;
        if (child + 1 < n && a[child] < a[child + 1]) child++;
        if (a[root] >= a[child]) return;
        int32_t t = a[root];
        a[root] = a[child], a[child] = t;
        root = child;
    }
}

static void heap(int32_t *a, int n) {
    for (int i = n / 2 - 1; i >= 0; i--) sift(a, i, n);
    for (int i = n - 1; i > 0; i--) {
        int32_t t = a[0];
        a[0] = a[i], a[i] = t;
        sift(a, 0, i);
    }
}

static void quick(uint32_t *a, int low, int high) {
    if (low >= high) return;
    uint32_t pivot = a[low + (high - low) / 2];
    int i = low, j = high;
    while (i <= j) {
        while (a[i] < pivot) i++;
        while (a[j] > pivot) j--;
        if (i <= j) {
            uint32_t t = a[i];
            a[i++] = a[j], a[j--] = t;
        }
    }
    quick(a, low, j);
    quick(a, i, high);
}

static void merge(int16_t *a, int16_t *room, int n) {
    if (n < 2) return;
    int half = n / 2;
    merge(a, room, half);
    merge(a + half, room, n - half);
    int i = 0, j = half;
    for (int k = 0; k < n; k++) room[k] = j >= n || (i < half && a[i] <= a[j]) ? a[i++] : a[j++];
    for (int k = 0; k < n; k++) a[k] = room[k];
}

void program(uint32_t *block) {
    static int16_t room[400];
    insertion((int32_t *)block, 200);
    shell(block + 200, 200);
    heap((int32_t *)block + 400, 200);
    quick(block + 600, 0, 199);
    merge((int16_t *)(block + 800), room, 400);
    for (int i = 0; i < 1000; i += 25) emit(block[i]);
}
