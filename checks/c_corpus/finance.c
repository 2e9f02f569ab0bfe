/* Money, in cents. */
#define RATE 19
#define PERCENT(x, p) ((x) * (p) / 100)

int printf(const char *, ...);

long tax_total;
long fees[4];

long net_of(long gross)
{
    long tax = PERCENT(gross, RATE);
    tax_total += tax;
    return gross - tax;
}

/* What a loan costs, month by month. */
long loan(long debt, int rate, long paid)
{
    long cost = 0;
    int months = 0;

    while (debt > 0 && months < 60) {
        long interest = debt * rate / 1200;
        cost += interest;
        debt += interest;
        debt -= paid;
        months++;
    }
    printf("%d months\n", months);
    return cost;
}

long compound(long start, int years, int rate)
{
    long value = start;

    for (int year = 0; year < years; year++)
        value += PERCENT(value, rate);
    return value;
}

/* The price of some pieces, cheaper from ten on. */
long price(int pieces, long each)
{
    long total = pieces * each;

    if (pieces >= 100)
        total = total * 80 / 100;
    else if (pieces >= 10)
        total = total * 95 / 100;
    else
        total += 250;
    return total;
}

void book_fees(const int *amounts, int n)
{
    long sum = 0;

    for (int i = 0; i < n; i++) {
        int kind = amounts[i] % 4;

        if (kind < 0)
            kind = 0;
        fees[kind] += amounts[i] / 10;
        sum += amounts[i];
    }
    tax_total = sum * RATE / 100;
}

long wage(long hours, long rate)
{
    long gross = hours * rate;
    long extra = 0;
    long tax;

    if (hours > 40)
        extra = (hours - 40) * rate / 2;
    gross += extra;
    tax = gross / 5;
    tax_total = tax;
    return gross - tax;
}

/* Whether a plan is paid off, and with what is left. */
int pays_off(long debt, const long *payments, int n)
{
    int paid = 0;

    for (int i = 0; i < n; i++) {
        debt -= payments[i];
        if (debt <= 0) {
            paid = 1;
            break;
        }
        debt += debt / 100;
    }
    tax_total = debt;
    return paid;
}

double rate_of_return(double first, double last, int years)
{
    double low = -0.9, high = 2.0;

    for (int step = 0; step < 30; step++) {
        double middle = (low + high) / 2;
        double value = first;

        for (int i = 0; i < years; i++)
            value *= 1 + middle;
        if (value < last)
            low = middle;
        else
            high = middle;
    }
    return low;
}

long depreciation(long value, int years)
{
    long left = value;
    long most = 0;

    do {
        long loss = left / 4;
        if (loss > most)
            most = loss;
        left -= loss;
        years--;
    } while (years > 0);
    tax_total = most;
    return left;
}
