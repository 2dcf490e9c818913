a = [3, 1, 2]
b = a
b.append(4)
b.extend([5, 6])
b.extend('xy')
b.insert(0, 'first')
b.insert(-1, 'before last')
b.insert(99, 'end')
print(a, len(a), a is b)
print(a.pop(), a.pop(0), a.pop(-2), a)
print(a.index(5), a[0], a[-1], a[1:3], a[:], a[2:])
a.reverse()
print(a, 5 in a, 9 in a, 9 not in a)
c = [5, 2, 9, 1]
c.sort()
print(c, sorted([3, 1, 2]), sorted(['b', 'a']), sorted([(2, 'a'), (1, 'b')]), sorted((3, 1)))
c[0] = 'zero'
c[-1] = 'last'
print(c)
del c[1]
print(c)
d = [1, 2]
e = d
d += [3]
d += (4, 5)
print(e, d is e, [1] + [2], [0] * 3, 2 * [1, 2], [] * 5)
d = d + [6]
print(d is e, len(d), len(e))
f = [[0] * 2] * 2
f[0][1] = 7
print(f, [1, [2, [3]]] == [1, [2, [3]]], [1, 2] < [1, 3], [2] > [1, 9], [1] != [1])
g = [1]
g.append(g)
print(g, g[1] is g)
print(list(enumerate(['p', 'q'])), list(zip([1, 2, 3], 'ab')), list((1, 2)), list({'k': 1}), list(range(2)))
print(max([[1, 2], [1, 3]]), min([(2, 1), (1, 2)]), sum([10, 20]), tuple([1, 2]))
xs = [1, 2, 3]
for x in xs:
    if x == 1:
        xs.append(9)
    print(x)
x, y = [1, 2]
print(x, y)
x, y = y, x
print(x, y)
(1, 2)[0]
for wrong in [3, -4]:
    try:
        print([1, 2, 3][wrong])
    except IndexError:
        print('IndexError', wrong)
    try:
        h = [1, 2, 3]
        h[wrong] = 0
        print(h)
    except IndexError:
        print('IndexError', wrong)
    try:
        h = [1, 2, 3]
        del h[wrong]
        print(h)
    except IndexError:
        print('IndexError', wrong)
try:
    [].pop()
except IndexError:
    print('IndexError')
try:
    [1].pop(5)
except IndexError:
    print('IndexError')
try:
    [1].index(2)
except ValueError:
    print('ValueError')
try:
    [1, 'a'].sort()
except TypeError:
    print('TypeError')
try:
    sorted([1, None])
except TypeError:
    print('TypeError')
try:
    [1].extend(5)
except TypeError:
    print('TypeError')
try:
    [1] + (2,)
except TypeError:
    print('TypeError')
try:
    p, q = [1]
except ValueError:
    print('ValueError')
try:
    p, q = 1, 2, 3
except ValueError:
    print('ValueError')
try:
    p, q = 5
except TypeError:
    print('TypeError')
try:
    for i in 5:
        print(i)
except TypeError:
    print('TypeError')
try:
    (1, 2)[0] = 3
except TypeError:
    print('TypeError')
try:
    [1, 2]['a']
except TypeError:
    print('TypeError')
