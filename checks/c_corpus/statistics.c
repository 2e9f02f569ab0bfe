/* Statistics of some numbers. */
int printf(const char *, ...);
double fabs(double);
double sqrt(double);

long seen;
double spread;

/* The sum, and how many numbers went into it. */
long sum_of(const int *a, int n)
{
    long sum = 0;

    seen = 0;
    for (int i = 0; i < n; i++) {
        sum += a[i];
        seen++;
    }
    return sum;
}

double mean_of(const double *a, int n)
{
    double sum = 0;

    if (n <= 0)
        return 0;
    for (int i = 0; i < n; i++)
        sum += a[i];
    return sum / n;
}

/* Of all numbers the mean of the squares of their distances from the mean. */
double variance(const double *a, int n)
{
    double sum = 0, squares = 0, mean;

    if (n < 2)
        return 0;
    for (int i = 0; i < n; i++)
        sum += a[i];
    mean = sum / n;
    for (int i = 0; i < n; i++) {
        double off = a[i] - mean;
        squares += off * off;
    }
    spread = sqrt(squares / n);
    return squares / (n - 1);
}

int least(const int *a, int n)
{
    int best = a[0];
    int at = 0;

    for (int i = 1; i < n; i++) {
        if (a[i] < best) {
            best = a[i];
            at = i;
        }
    }
    seen = at;
    return best;
}

/* Where the greatest number stands, the first time. */
int where_greatest(const int *a, int n)
{
    int at = 0;
    for (int i = 1; i < n; i++)
        if (a[i] > a[at])
            at = i;
    return at;
}

long range_of(const int *a, int n)
{
    long low = a[0], high = a[0];

    for (int i = 1; i < n; i++) {
        long x = a[i];

        if (x < low)
            low = x;
        if (x > high)
            high = x;
    }
    spread = high - low;
    return high - low;
}

/* The mean without numbers that are far off. */
double clipped_mean(const double *a, int n, double limit)
{
    double sum = 0;
    int used = 0;

    for (int i = 0; i < n; i++) {
        if (fabs(a[i]) > limit)
            continue;
        sum += a[i];
        used++;
    }
    seen = used;
    if (used == 0)
        return 0;
    return sum / used;
}

double covariance(const double *x, const double *y, int n)
{
    double mx = 0, my = 0, both = 0;
    int i;

    if (n < 1)
        return 0;
    for (i = 0; i < n; i++) {
        mx += x[i];
        my += y[i];
    }
    mx /= n;
    my /= n;
    for (i = 0; i < n; i++)
        both += (x[i] - mx) * (y[i] - my);
    return both / n;
}

/* Moving mean over the last w numbers. */
void moving_mean(const int *a, int n, int w, double *restrict out)
{
    long sum = 0;

    for (int i = 0; i < n; i++) {
        sum += a[i];
        if (i >= w && w > 0)
            sum -= a[i - w];
        out[i] = (double)sum / (w > 0 ? w : 1);
    }
}
