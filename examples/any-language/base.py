def wage(hours, rate):
    gross = hours * rate
    days = 0
    left = hours
    while left > 0:
        left = left - 8
        days = days + 1
    tax = gross / 5
    return gross, tax, days
