def wage(hours, rate):
    over = 0
    if hours > 40:
        over = hours - 40
    gross = hours * rate + over * rate / 2
    days = 0
    left = hours
    while left > 0:
        left = left - 8
        days = days + 1
    tax = gross / 5
    return gross, tax, days
