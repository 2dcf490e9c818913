"""Means of resamples of a sample, drawn by random words of the system."""
import random

sample = [12, 15, 9, 20, 14, 11, 18, 13]


def resampled_total(values):
    total = 0
    for value in values:
        total += values[random.randint(0, len(values) - 1)]
    return total


totals = []
for turn in range(200):
    totals.append(resampled_total(sample))
totals.sort()
print('resamples:', len(totals))
print('in order:', totals == sorted(totals))
print('within the sample:', min(sample) * len(sample) <= totals[0] and totals[-1] <= max(sample) * len(sample))
