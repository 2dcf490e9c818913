d = {'b': 1, 'a': 2, 3: 'three', None: 'none', (1, 'x'): 'tuple', True: 'yes'}
print(d, len(d), d['a'], d[3], d[None], d[(1, 'x')], d[1])
d['b'] = 10
d['new'] = []
d[1] = 'one'
del d['a']
d['a'] = 'again'
print(d)
print(list(d), d.keys() == d.keys(), list(d.keys()), list(d.values()), list(d.items())[0])
print(d.get('b'), d.get('zz'), d.get('zz', 5), 'b' in d, 'zz' in d, 'zz' not in d)
for key in d:
    print(key, d[key])
for key, value in d.items():
    print(key, value)
e = dict()
for word in 'a b a c b a'.split():
    e[word] = e.get(word, 0) + 1
print(e, e == {'c': 1, 'b': 2, 'a': 3}, e != {}, {1: 2} == {True: 2}, max(e), sorted(e))
f = e
f['a'] = {'inner': [1, 2]}
f['a']['inner'].append(3)
print(e, bool(e), bool({}))
g = {}
g['self'] = g
print(g)
print({1: 'a', 1: 'b', True: 'c'})
for wrong in ['zz', 0, (9,)]:
    try:
        print(e[wrong])
    except KeyError:
        print('KeyError', wrong)
    try:
        del e[wrong]
    except KeyError:
        print('KeyError', wrong)
try:
    print(e[[]])
except TypeError:
    print('TypeError')
try:
    e[{}] = 1
except TypeError:
    print('TypeError')
try:
    print({[]: 1})
except TypeError:
    print('TypeError')
try:
    for key in e:
        e['more'] = 1
except RuntimeError:
    print('RuntimeError')
try:
    print({} < {})
except TypeError:
    print('TypeError')
try:
    print(None['a'])
except TypeError:
    print('TypeError')
try:
    print(e.get())
except TypeError:
    print('TypeError')
