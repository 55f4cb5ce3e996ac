// The image that is timed: it copies the words of the input block and sorts the copy by insertion, over and over, and emits each copy's
// middle word. It never ends, so the step limit stops it. image.h holds it compiled.
enum { COUNT = 1000 };

static void emit(int value) {
    register int x10 __asm__("x10") = value;
    register int x17 __asm__("x17") = 1;
    __asm__ volatile("ecall" : : "r"(x10), "r"(x17));
}

void start(void) {
    const int *input = (const int *)0x100000;
    int *array = (int *)0x100000 + COUNT;
    for (;;) {
        for (int i = 0; i < COUNT; i++) array[i] = input[i];
        for (int i = 1; i < COUNT; i++) {
            int value = array[i];
            int j = i;
            while (j > 0 && array[j - 1] > value) {
                array[j] = array[j - 1];
                j--;
            }
            array[j] = value;
        }
        emit(array[COUNT / 2]);
    }
}
