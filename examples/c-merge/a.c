long tax_paid, days_paid;

/* What a week of work is worth, in cents. */
long wage(long hours, long rate)
{
    long gross = hours * rate;
    long over = hours > 40 ? hours - 40 : 0;
    long left = hours;

    gross += over * rate / 2;
    days_paid = 0;
    while (left > 0) {
        left -= 8;
        days_paid++;
    }
    tax_paid = gross / 5;
    return gross - tax_paid;
}
