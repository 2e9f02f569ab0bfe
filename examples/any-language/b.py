def wage(hours, rate):
    length = 8
    gross = hours * rate
    days = 0
    left = hours
    while left > 0:
        left = left - length
        if left > -length / 2:
            days = days + 1
    tax = gross / 5
    return gross, tax, days
