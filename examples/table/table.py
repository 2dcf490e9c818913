"""A table of squares and cubes, written to a file that is then read again."""


def row(n):
    return str(n).rjust(3) + str(n * n).rjust(6) + str(n * n * n).rjust(8)


with open('table.txt', 'w') as table:
    for n in range(1, 6):
        table.write(row(n) + '\n')

total = 0
with open('table.txt') as table:
    for line in table:
        parts = line.split()
        total += int(parts[2])
print('sum of the cubes:', total)
