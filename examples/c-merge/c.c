long tax_paid, days_paid;

/* What a week of work is worth, in cents. */
long wage(long hours, long rate)
{
    long gross = hours * rate;
    long left = hours;

    days_paid = 0;
    while (left > 0) {
        left -= 8;
        days_paid++;
    }
    tax_paid = gross / 4;
    return gross - tax_paid;
}
