/* Controllers and filters. */
int printf(const char *, ...);

struct pid {
    double p, i, d;
    double sum;
    double last;
    int steps;
};

struct motor {
    int speed;
    int limit;
    int errors;
    long way;
};

enum mode { OFF, SLOW = 3, FAST };

int alarm_count;

double pid_step(struct pid *c, double wanted, double is)
{
    double error = wanted - is;
    double out;

    c->sum += error;
    if (c->sum > 100)
        c->sum = 100;
    out = c->p * error + c->i * c->sum + c->d * (error - c->last);
    c->last = error;
    c->steps++;
    return out;
}

/* Speeds up to the limit. */
void motor_tick(struct motor *m, int wanted)
{
    if (wanted > m->limit) {
        wanted = m->limit;
        m->errors++;
    }
    if (m->speed < wanted)
        m->speed += 2;
    else if (m->speed > wanted)
        m->speed -= 3;
    m->way += m->speed;
}

int hysteresis(int is, int on, int low, int high)
{
    if (on && is > high)
        on = 0;
    if (!on && is < low)
        on = 1;
    return on;
}

double low_pass(const double *in, int n, double weight)
{
    double state = 0;
    double peak = 0;

    for (int i = 0; i < n; i++) {
        state += weight * (in[i] - state);
        if (state > peak)
            peak = state;
    }
    alarm_count = peak > 10;
    return state;
}

int debounce(const unsigned char *pins, int n)
{
    int state = 0, run = 0, changes = 0;

    for (int i = 0; i < n; i++) {
        int pin = pins[i] & 1;

        if (pin == state) {
            run = 0;
            continue;
        }
        run++;
        if (run >= 3) {
            state = pin;
            run = 0;
            changes++;
        }
    }
    alarm_count += changes;
    return state;
}

int speed_of(enum mode mode, int load)
{
    int speed = 0;

    if (mode == SLOW)
        speed = 10;
    else if (mode == FAST)
        speed = 30;
    if (load > 5)
        speed -= load;
    if (speed < 0) {
        speed = 0;
        alarm_count++;
    }
    return speed;
}

/* Counts how often a limit is passed, and stops at the third time. */
int watch(const int *levels, int n, int limit)
{
    int times = 0;
    int last = 0;

    for (int i = 0; i < n; i++) {
        if (levels[i] > limit && last <= limit)
            times++;
        if (times == 3)
            return i;
        last = levels[i];
    }
    alarm_count = times;
    return -1;
}

void ramp(int *out, int n, int from, int by)
{
    int value = from;

    for (int i = 0; i < n; i++) {
        out[i] = value;
        value += by;
        if (value > 50)
            value = 50;
    }
}

unsigned step_code(unsigned code, int up)
{
    unsigned gray;

    if (up)
        code++;
    else
        code--;
    code &= 15u;
    gray = code ^ (code >> 1);
    return gray;
}
