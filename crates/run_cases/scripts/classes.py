class Animal:
    def __init__(self, name):
        self.name = name
        self.seen = []

    def speak(self):
        return self.name + ' makes ' + self.sound()

    def sound(self):
        return 'a noise'


class Dog(Animal):
    def sound(self):
        return 'woof'

    def meet(self, other):
        self.seen.append(other.name)
        return other


class Puppy(Dog):
    pass


class Empty:
    'nothing in it'


class Trouble(Exception):
    def __init__(self, code):
        self.code = code


class Small(ValueError):
    pass


a = Animal('cat')
b = Dog('rex')
c = Puppy('tim')
print(a.speak(), b.speak(), c.speak())
print(b.meet(a) is a, b.meet(c).meet(b).seen, b.seen, a.seen)
print(isinstance(c, Animal), isinstance(a, Dog), isinstance(1, int), isinstance(True, int), isinstance('x', (int, str)), isinstance([], list), isinstance({}, dict), isinstance((), tuple), isinstance(1, bool))
a.name = 'dog'
a.extra = 1
a.extra += 2
print(a.name, a.extra, a.speak())
e = Empty()
e.x = 5
print(e.x, e == e, e == Empty(), e is e)
try:
    raise Trouble(42)
except Trouble as t:
    print('Trouble', t.code)
try:
    raise Small('too small')
except LookupError:
    print('no')
except ValueError as v:
    print('ValueError', v, repr(v), isinstance(v, Small), isinstance(v, Exception))
try:
    raise KeyError('k')
except LookupError as k:
    print(k, repr(k))
try:
    try:
        raise IndexError('inner')
    except KeyError:
        print('no')
    except IndexError:
        print('again')
        raise
except LookupError as caught:
    print('outer', caught)
try:
    raise ValueError
except ValueError as v:
    print([str(v)], repr(v))
try:
    raise ValueError(1, 'two')
except ValueError as v:
    print(v, repr(v), v.args)
try:
    print(a.missing)
except AttributeError:
    print('AttributeError')
try:
    a.missing()
except AttributeError:
    print('AttributeError')
try:
    Dog()
except TypeError:
    print('TypeError')
try:
    b.speak(1)
except TypeError:
    print('TypeError')
try:
    Empty(1)
except TypeError:
    print('TypeError')
try:
    raise 5
except TypeError:
    print('TypeError')
try:
    assert 1 == 1, 'fine'
    assert [], 'empty'
except AssertionError as failed:
    print('AssertionError', failed)
try:
    assert False
except AssertionError as failed:
    print('AssertionError', [str(failed)])
try:
    5()
except TypeError:
    print('TypeError')
try:
    isinstance(1, 5)
except TypeError:
    print('TypeError')
b.meet(e)
