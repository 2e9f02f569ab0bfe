/* Tables, and what is looked up in them. */
int printf(const char *, ...);

static const int days[12] = {31, 28, 31, 30, 31, 30, 31, 31, 30, 31, 30, 31};
static const double factors[4] = {1.0, 1.5, 2.25, 4.0};

int misses;
long ledger[6];

static int is_leap(int year)
{
    return year % 4 == 0 && (year % 100 != 0 || year % 400 == 0);
}

static int clamp(int x, int low, int high)
{
    if (x < low)
        return low;
    if (x > high)
        return high;
    return x;
}

int day_of_year(int day, int month, int year)
{
    int sum = day;
    int last = clamp(month, 1, 12);

    for (int i = 0; i + 1 < last; i++)
        sum += days[i];
    if (last > 2 && is_leap(year))
        sum++;
    return sum;
}

double scaled(double x, int step)
{
    int at = clamp(step, 0, 3);
    if (at != step)
        misses++;
    return x * factors[at];
}

/* The first place with this key, or -1. */
int look_up(const int *keys, int n, int key)
{
    for (int i = 0; i < n; i++) {
        if (keys[i] == key)
            return i;
    }
    misses++;
    return -1;
}

int search(const int *keys, int n, int key)
{
    int low = 0, high = n, probes = 0;

    while (low < high) {
        int middle = low + (high - low) / 2;

        probes++;
        if (keys[middle] < key)
            low = middle + 1;
        else
            high = middle;
    }
    misses = probes;
    return low;
}

void histogram(const unsigned char *bytes, int n, int *restrict counts)
{
    int peak = 0;

    for (int i = 0; i < 8; i++)
        counts[i] = 0;
    for (int i = 0; i < n; i++) {
        int at = bytes[i] >> 5;

        counts[at]++;
        if (counts[at] > peak)
            peak = counts[at];
    }
    misses = peak;
}

void post(int account, long amount)
{
    if (account < 0 || account >= 6) {
        misses++;
        return;
    }
    ledger[account] += amount;
    ledger[0] -= amount;
}

int checksum(const unsigned char *bytes, int n)
{
    unsigned low = 1, high = 0;

    for (int i = 0; i < n; i++) {
        low = (low + bytes[i]) % 251;
        high = (high + low) % 251;
    }
    return high * 256 + low;
}

/* Value between two entries of a table. */
double between(const double *x, const double *y, int n, double at)
{
    int i = 0;
    double part;

    if (n < 2)
        return 0;
    while (i + 2 < n && x[i + 1] < at)
        i++;
    if (x[i + 1] == x[i]) {
        misses++;
        return y[i];
    }
    part = (at - x[i]) / (x[i + 1] - x[i]);
    return y[i] + part * (y[i + 1] - y[i]);
}

void transpose(int m[4][4])
{
    for (int i = 0; i < 4; i++) {
        for (int j = 0; j < i; j++) {
            int kept = m[i][j];
            m[i][j] = m[j][i];
            m[j][i] = kept;
        }
    }
}
