/* Counting, and numbers themselves. */
int putchar(int);
int printf(const char *, ...);

long steps;
int kinds[8];

long greatest_divisor(long a, long b)
{
    long rounds = 0;

    if (a < 0)
        a = -a;
    if (b < 0)
        b = -b;
    while (b != 0) {
        long rest = a % b;
        a = b;
        b = rest;
        rounds++;
    }
    steps = rounds;
    return a;
}

int primes_to(int n)
{
    int count = 0;
    long sum = 0;

    for (int i = 2; i <= n; i++) {
        int is_prime = 1;

        for (int d = 2; d * d <= i; d++) {
            if (i % d == 0) {
                is_prime = 0;
                break;
            }
        }
        if (is_prime) {
            count++;
            sum += i;
        }
    }
    steps = sum;
    return count;
}

/* How long until the number is 1. */
int collatz(long n)
{
    int length = 0;
    long top = n;

    while (n > 1 && length < 100) {
        if (n % 2 == 0)
            n /= 2;
        else
            n = 3 * n + 1;
        if (n > top)
            top = n;
        length++;
    }
    steps = top;
    return length;
}

int digits_of(long n)
{
    int count = 0;
    long sum = 0;

    if (n < 0)
        n = -n;
    do {
        sum += n % 10;
        n /= 10;
        count++;
    } while (n > 0);
    steps += sum;
    return count;
}

void count_kinds(const int *a, int n)
{
    int other = 0;

    for (int i = 0; i < n; i++) {
        if (a[i] < 0 || a[i] > 7) {
            other++;
            continue;
        }
        kinds[a[i]]++;
    }
    steps = other;
}

unsigned bits_of(unsigned x)
{
    unsigned count = 0;

    while (x) {
        count += x & 1u;
        x >>= 1;
    }
    return count;
}

/* A triangle of stars. */
void triangle(int n)
{
    int all = 0;

    for (int i = 1; i <= n; i++) {
        for (int j = 0; j < i; j++) {
            putchar('*');
            all++;
        }
        putchar('\n');
    }
    printf("%d\n", all);
}

long fibonacci(int n)
{
    long a = 0, b = 1;

    for (int i = 0; i < n && i < 80; i++) {
        long next = a + b;
        a = b;
        b = next;
    }
    return a;
}

int longest_run(const int *a, int n)
{
    int best = 0, run = 0;

    for (int i = 0; i < n; i++) {
        if (i > 0 && a[i] == a[i - 1])
            run++;
        else
            run = 1;
        if (run > best)
            best = run;
    }
    return best;
}
