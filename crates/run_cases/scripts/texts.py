s = ' \tNaïve text, twice: text\n'
print(s, repr(s), len(s), s.strip(), [s.lstrip()], [s.rstrip()])
print('a,b,,c'.split(','), ' a  b '.split(), 'a--b'.split('--'), ''.split(), ''.split(','))
print('-'.join(['x', 'y', 'z']), '-'.join([]), ''.join(('a', 'b')), ', '.join('abc'))
print('banana'.replace('an', 'AN'), 'banana'.replace('x', 'y'), 'banana'.find('na'), 'banana'.find('x'), 'banana'.find(''))
print('banana'.startswith('ba'), 'banana'.endswith('na'), 'banana'.startswith('x'), 'banana'.endswith(''))
print('MiXed 7'.upper(), 'MiXed 7'.lower(), '123'.isdigit(), '12a'.isdigit(), ''.isdigit())
print(['ab'.ljust(5), 'ab'.rjust(5), 'abc'.ljust(2), 'abc'.rjust(-1)])
print('abc'[0], 'abc'[-1], 'abcdef'[1:4], 'abcdef'[:2], 'abcdef'[4:], 'abcdef'[:], 'abc'[5:9], 'abc'[-2:], 'abc'[2:1])
print('a' in 'cat', 'at' in 'cat', '' in 'cat', 'x' not in 'cat', 'ab' * 3, 2 * 'x', 'x' * 0, 'x' * -1)
print(repr("it's"), repr('say "x"'), repr('both \' and "'), repr('tab\tend\\'), repr('\r\n'))
print(str(None), str(True), str(-3), str('a'), str(['a', 1]), str(('a',)), str({'k': 'v'}), repr({}), repr(()), repr([]))
print('one' + ' ' + 'two', 'a' == 'a', 'a' != 'b', 'B' < 'a', 'ab' > 'a')
t = 'x'
t += 'yz'
print(t, tuple('abc'), list('abc'), sorted('banana'), max('banana'), min('banana'), 'é' > 'z')
for letter in 'dé':
    print(letter, ord(letter))
try:
    print('abc'[3])
except IndexError:
    print('IndexError')
try:
    print('abc'['a'])
except TypeError:
    print('TypeError')
try:
    print(','.join([1]))
except TypeError:
    print('TypeError')
try:
    print('a'.split(''))
except ValueError:
    print('ValueError')
try:
    print(1 in 'abc')
except TypeError:
    print('TypeError')
try:
    print('a'.find(1))
except TypeError:
    print('TypeError')
try:
    print('a'.upper(1))
except TypeError:
    print('TypeError')
try:
    print(len(5))
except TypeError:
    print('TypeError')
print('end', end_is_unset) if False else print('last')
