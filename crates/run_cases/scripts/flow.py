limit = 3
count = 0


def factorial(n):
    if n <= 1:
        return 1
    return n * factorial(n - 1)


def bump():
    global count
    count += 1
    return count


def nothing():
    pass


def early(xs):
    for x in xs:
        if x > limit:
            return x
    return None


def local_first():
    try:
        print(limit_here)
    except NameError:
        print('NameError')
    try:
        value += 1
    except UnboundLocalError:
        print('UnboundLocalError')
    value = 1
    return value


def is_even(n):
    return True if n == 0 else is_odd(n - 1)


def is_odd(n):
    return False if n == 0 else is_even(n - 1)


def deep(n):
    return deep(n + 1)


print(factorial(10), bump() + bump() * 10, nothing(), early([1, 5, 9]), early([]))
print(local_first(), is_even(10), is_odd(7))
i = 0
while i < 10:
    i += 1
    if i == 3:
        continue
    if i > 6:
        break
    for j in range(i):
        if j == 2:
            break
        print(i, j)
if i == 100:
    print('no')
elif i == 7:
    print('seven')
else:
    print('no')
print(bump() or bump(), bump() and 0, count)
try:
    deep(0)
except RecursionError:
    print('RecursionError')
try:
    unknown()
except NameError:
    print('NameError')
try:
    factorial()
except TypeError:
    print('TypeError')
try:
    factorial(1, 2)
except TypeError:
    print('TypeError')
try:
    print(undefined)
except NameError as error:
    caught = True
print(caught)
try:
    print(error)
except NameError:
    print('unset')
for x in [1]:
    pass
print(x, __name__)
del x
try:
    x
except NameError:
    print('NameError')
try:
    del x
except NameError:
    print('NameError')
words = {'a': [1, 2], 'b': [3]}
for word in words:
    for number in words[word]:
        if number == 2:
            continue
        print(word, number)
print(1 // 0)
