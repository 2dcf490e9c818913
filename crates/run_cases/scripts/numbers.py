def quotient(a, b):
    try:
        return (a // b, a % b)
    except ZeroDivisionError:
        return 'ZeroDivisionError'


for a in [7, -7, 0]:
    for b in [2, -2, 0, 3]:
        print(a, b, quotient(a, b))
print(1 + 2, 5 - 8, 4 * -3, -5, +5, - -5, True + True)
print(not 0, not 'a', not [], not {}, not (0,), bool(3), bool(''), bool(range(0)))
print(1 == True, 1 != 2, 1 < 2, 2 <= 2, 3 > 4, 4 >= 5, 'a' < 'b', 'a' >= 'b', (1, 2) < (1, 3), [1] <= [1, 0])
print(None is None, True is True, None is not None, [] is [])
print(1 and 0, 0 or 'x', '' and 1, None or 0, 1 if 0 else 2, 'y' if [0] else 'n')
print(abs(-9), abs(True), max(3, 1, 2), min([4, 2, 8]), max('b', 'a'), sum([1, 2, 3]), sum(range(5)), sum([]))
print(int('  -42 '), int('+7'), int(True), int(5), ord('a'), ord('é'), chr(955), chr(48))
print(range(3), range(1, 4), range(0, 6, 2), range(3) == range(0, 3, 1), len(range(10, 0, -3)), list(range(10, 0, -3)))
n = 3
n += 4
n -= 1
n *= 5
n //= 4
n %= 4
print(n, 9223372036854775807, -9223372036854775807)
for wrong in ['x', '', '1.5', '1 2', '--1']:
    try:
        print(int(wrong))
    except ValueError:
        print('ValueError', repr(wrong))
for pair in [(1, 'a'), (None, 1), ([], 1), ({}, {})]:
    try:
        print(pair[0] + pair[1])
    except TypeError:
        print('TypeError', pair)
    try:
        print(pair[0] - pair[1])
    except TypeError:
        print('TypeError', pair)
    try:
        print(pair[0] < pair[1])
    except TypeError:
        print('TypeError', pair)
for wrong in [None, [], 'ab']:
    try:
        print(-wrong)
    except TypeError:
        print('TypeError', wrong)
    try:
        print(abs(wrong))
    except TypeError:
        print('TypeError', wrong)
try:
    print(range(1, 2, 0))
except ValueError:
    print('ValueError')
try:
    print(chr(-1))
except ValueError:
    print('ValueError')
try:
    print(ord(5))
except TypeError:
    print('TypeError')
try:
    print(max([]))
except ValueError:
    print('ValueError')
try:
    print(min(1, 'a'))
except TypeError:
    print('TypeError')
try:
    print(sum(['a']))
except TypeError:
    print('TypeError')
