// clang --target=wasm32 -O2 -nostdlib -Wl,--no-entry -Wl,--strip-all -Wl,--export-dynamic -fvisibility=default -o sorting.wasm sorting.c
static void swap(int *a, int *b) {
    int x = *a;
    *a = *b;
    *b = x;
}

void sort(int *items, int count) {
    while (count > 1) {
        int pivot = items[count / 2], i = 0, j = count - 1;
        while (i <= j) {
            while (items[i] < pivot) i++;
            while (items[j] > pivot) j--;
            if (i <= j) swap(&items[i++], &items[j--]);
        }
        sort(items, j + 1);
        items += i;
        count -= i;
    }
}

int find(const int *items, int count, int wanted) {
    int low = 0, high = count;
    while (low < high) {
        int middle = low + (high - low) / 2;
        if (items[middle] == wanted) return middle;
        if (items[middle] < wanted) low = middle + 1;
        else high = middle;
    }
    return -1;
}

void heapify(long long *heap, unsigned count, unsigned root) {
    for (;;) {
        unsigned child = 2 * root + 1;
        if (child >= count) return;
        if (child + 1 < count && heap[child + 1] > heap[child]) child++;
        if (heap[root] >= heap[child]) return;
        long long x = heap[root];
        heap[root] = heap[child];
        heap[child] = x;
        root = child;
    }
}
