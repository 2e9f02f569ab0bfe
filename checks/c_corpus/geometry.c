/* Points and polygons. */
int printf(const char *, ...);
double sqrt(double);

typedef struct {
    double x, y;
} point;

double area_seen;
int outside;

double distance(const point *a, const point *b)
{
    double dx = a->x - b->x;
    double dy = a->y - b->y;
    return sqrt(dx * dx + dy * dy);
}

double perimeter(const point *p, int n)
{
    double sum = 0;

    for (int i = 0; i < n; i++) {
        int next = i + 1 == n ? 0 : i + 1;
        double dx = p[next].x - p[i].x;
        double dy = p[next].y - p[i].y;
        sum += sqrt(dx * dx + dy * dy);
    }
    return sum;
}

/* Twice the area, with its sign. */
double area_twice(const point *p, int n)
{
    double sum = 0;

    for (int i = 0; i + 1 < n; i++)
        sum += p[i].x * p[i + 1].y - p[i + 1].x * p[i].y;
    area_seen = sum < 0 ? -sum : sum;
    return sum;
}

void move_all(point *p, int n, double dx, double dy)
{
    for (int i = 0; i < n; i++) {
        p[i].x += dx;
        p[i].y += dy;
    }
}

/* The box around some points: low and high corner. */
void box_of(const double *x, const double *y, int n, double *restrict box)
{
    double left = x[0], right = x[0], low = y[0], high = y[0];

    for (int i = 1; i < n; i++) {
        if (x[i] < left)
            left = x[i];
        if (x[i] > right)
            right = x[i];
        if (y[i] < low)
            low = y[i];
        if (y[i] > high)
            high = y[i];
    }
    box[0] = left;
    box[1] = low;
    box[2] = right;
    box[3] = high;
}

int inside_box(double x, double y, double w, double h)
{
    if (x < 0 || x > w) {
        outside++;
        return 0;
    }
    if (y < 0 || y > h) {
        outside++;
        return 0;
    }
    return 1;
}

void multiply(double a[3][3], double b[3][3], double out[restrict 3][3])
{
    for (int i = 0; i < 3; i++) {
        for (int j = 0; j < 3; j++) {
            double sum = 0;
            for (int k = 0; k < 3; k++)
                sum += a[i][k] * b[k][j];
            out[i][j] = sum;
        }
    }
}

double determinant(double m[3][3])
{
    double first = m[1][1] * m[2][2] - m[1][2] * m[2][1];
    double second = m[1][0] * m[2][2] - m[1][2] * m[2][0];
    double third = m[1][0] * m[2][1] - m[1][1] * m[2][0];
    double all = m[0][0] * first - m[0][1] * second + m[0][2] * third;

    area_seen = all;
    return all;
}

/* How many lattice points lie under a line. */
long lattice(int width, int rise, int run)
{
    long count = 0;

    if (run <= 0)
        return -1;
    for (int x = 0; x < width; x++) {
        int y = x * rise / run;
        if (y > 0)
            count += y;
    }
    return count;
}
