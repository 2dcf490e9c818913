"""A survey of the minutes that people need to work: means and medians by district, the mean of the town, and its range over resamples.

Means are hundredths of minutes, since the language has no floats. The generator of the resamples is written here, and
its seed is an argument: so each run prints the same, which it would not do by the module random.
"""
import sys

RESAMPLES = 50
LONGEST = 240


class BadRow(Exception):
    pass


class District:
    def __init__(self, name, people):
        self.name = name
        self.people = people
        self.minutes = []


class Survey:
    def __init__(self):
        self.districts = {}
        self.rows = 0
        self.bad = {}

    def refuse(self, reason):
        self.bad[reason] = self.bad.get(reason, 0) + 1

    def answered(self):
        found = []
        for name in self.districts:
            if len(self.districts[name].minutes) > 0:
                found.append(self.districts[name])
        return found


class Generator:
    """A linear congruential generator of 31 bits, of which the upper 15 are taken."""

    def __init__(self, seed):
        self.state = seed % 2147483648

    def below(self, bound):
        self.state = (self.state * 1103515245 + 12345) % 2147483648
        return self.state // 65536 % bound


def read_districts(path, survey):
    with open(path) as source:
        source.readline()
        for line in source:
            name, people = line.strip().split(',')
            survey.districts[name] = District(name, int(people))


def read_answer(line, survey):
    parts = line.strip().split(',')
    if len(parts) != 3:
        raise BadRow('not three fields')
    person, name, minutes = parts
    if name not in survey.districts:
        raise BadRow('no such district')
    if not minutes.isdigit():
        raise BadRow('no number')
    if int(minutes) > LONGEST:
        raise BadRow('too long')
    survey.districts[name].minutes.append(int(minutes))


def read_answers(path, survey):
    with open(path) as source:
        source.readline()
        for line in source:
            survey.rows += 1
            try:
                read_answer(line, survey)
            except BadRow as error:
                survey.refuse(str(error))


def divided(a, b):
    """The quotient, rounded to the nearest."""
    return (2 * a + b) // (2 * b)


def mean_of(values):
    return divided(100 * sum(values), len(values))


def median_of(values):
    ordered = sorted(values)
    upper = ordered[len(ordered) // 2]
    lower = ordered[(len(ordered) - 1) // 2]
    return divided(100 * (lower + upper), 2)


def mean_of_town(districts, means):
    """The mean of the districts' means, each with the weight of its people."""
    total = 0
    people = 0
    for district in districts:
        total += means[district.name] * district.people
        people += district.people
    return divided(total, people)


def resampled(values, generator):
    drawn = []
    for turn in range(len(values)):
        drawn.append(values[generator.below(len(values))])
    return drawn


def resampled_means(districts, generator):
    found = []
    for turn in range(RESAMPLES):
        means = {}
        for district in districts:
            means[district.name] = mean_of(resampled(district.minutes, generator))
        found.append(mean_of_town(districts, means))
    return sorted(found)


def fixed(hundredths):
    return str(hundredths // 100) + '.' + str(100 + hundredths % 100)[1:]


def write_table(path, districts, means):
    with open(path, 'w') as table:
        table.write('district   answers     mean   median\n')
        for district in districts:
            answers = str(len(district.minutes))
            median = median_of(district.minutes)
            table.write(district.name.ljust(10) + answers.rjust(8) + fixed(means[district.name]).rjust(9) + fixed(median).rjust(9) + '\n')


def main():
    survey = Survey()
    read_districts(sys.argv[2], survey)
    read_answers(sys.argv[1], survey)
    districts = survey.answered()
    means = {}
    answers = 0
    for district in districts:
        means[district.name] = mean_of(district.minutes)
        answers += len(district.minutes)
    print('answers:', answers, 'of', survey.rows, 'rows')
    for reason in sorted(survey.bad):
        print('  ' + str(survey.bad[reason]), 'with', reason)
    town = fixed(mean_of_town(districts, means))
    print('minutes in the town:', town)
    found = resampled_means(districts, Generator(int(sys.argv[3])))
    cut = RESAMPLES // 10
    print('in', RESAMPLES - 2 * cut, 'of', RESAMPLES, 'resamples:', fixed(found[cut]), 'to', fixed(found[RESAMPLES - cut - 1]))
    write_table('means.txt', districts, means)


if __name__ == '__main__':
    main()
