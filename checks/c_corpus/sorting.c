/* Sorting of a fixed array, and what is found on the way. */
int printf(const char *, ...);

long swaps;
int middle_value;

void insertion_sort(int *a, int n)
{
    long moved = 0;

    for (int i = 1; i < n; i++) {
        int x = a[i];
        int j = i;

        while (j > 0 && a[j - 1] > x) {
            a[j] = a[j - 1];
            j--;
            moved++;
        }
        a[j] = x;
    }
    swaps = moved;
}

void bubble_sort(int *a, int n)
{
    int again = 1;

    while (again) {
        again = 0;
        for (int i = 0; i + 1 < n; i++) {
            if (a[i] > a[i + 1]) {
                int kept = a[i];
                a[i] = a[i + 1];
                a[i + 1] = kept;
                again = 1;
            }
        }
    }
}

void selection_sort(int *a, int n)
{
    swaps = 0;
    for (int i = 0; i < n; i++) {
        int least = i;

        for (int j = i + 1; j < n; j++)
            if (a[j] < a[least])
                least = j;
        if (least != i) {
            int kept = a[i];
            a[i] = a[least];
            a[least] = kept;
            swaps++;
        }
    }
}

/* Numbers from 0 to 9, by counting them. */
void counting_sort(const int *a, int n, int *restrict out)
{
    int counts[10] = {0};
    int at = 0;

    for (int i = 0; i < n; i++)
        if (a[i] >= 0 && a[i] < 10)
            counts[a[i]]++;
    for (int x = 0; x < 10; x++) {
        for (int k = 0; k < counts[x]; k++) {
            out[at] = x;
            at++;
        }
    }
}

int is_sorted(const int *a, int n)
{
    for (int i = 0; i + 1 < n; i++)
        if (a[i] > a[i + 1])
            return 0;
    return 1;
}

int median_of_three(int a, int b, int c)
{
    int low = a, high = b;

    if (low > high) {
        low = b;
        high = a;
    }
    if (c < low)
        middle_value = low;
    else if (c > high)
        middle_value = high;
    else
        middle_value = c;
    return middle_value;
}

/* Puts what is less than the pivot in front, and tells how much that is. */
int part_by(int *a, int n, int pivot)
{
    int less = 0;

    for (int i = 0; i < n; i++) {
        if (a[i] < pivot) {
            int kept = a[i];
            a[i] = a[less];
            a[less] = kept;
            less++;
        }
    }
    swaps += less;
    return less;
}

void reverse(int *a, int n)
{
    for (int i = 0, j = n - 1; i < j; i++, j--) {
        int kept = a[i];
        a[i] = a[j];
        a[j] = kept;
    }
}

int without_doubles(int *a, int n)
{
    int kept = 0;

    for (int i = 0; i < n; i++) {
        if (i > 0 && a[i] == a[kept - 1])
            continue;
        a[kept] = a[i];
        kept++;
    }
    swaps = n - kept;
    return kept;
}

long inversions(const int *a, int n)
{
    long count = 0;
    int furthest = 0;

    for (int i = 0; i < n; i++) {
        for (int j = i + 1; j < n; j++) {
            if (a[i] > a[j]) {
                count++;
                if (j - i > furthest)
                    furthest = j - i;
            }
        }
    }
    swaps = furthest;
    return count;
}
