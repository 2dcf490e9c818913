"""A reading that is missing, which nothing catches."""
readings = {'monday': 12, 'tuesday': 15}


def reading(day):
    if day not in readings:
        raise LookupError('no reading for ' + day)
    return readings[day]


for day in ['monday', 'tuesday', 'wednesday']:
    print(day, reading(day))
