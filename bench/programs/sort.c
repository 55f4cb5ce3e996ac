void program(int *a) {
    int i = 1;
    while (i < 200) {
        int v = a[i];
        int j = i;
        while (j > 0 && a[j - 1] > v) { a[j] = a[j - 1]; j = j - 1; }
        a[j] = v;
        i = i + 1;
    }
}
