import sys

print(sys.argv[0], len(sys.argv), sys.argv[1], sys.argv[2])
out = open('out.txt', 'w')
print(out.write('one\ntwo\n'), out.write('thrée'))
out.close()
with open('out.txt') as source:
    for line in source:
        print(repr(line))
with open('out.txt', 'a') as more:
    more.write('\nfour\n')
with open('out.txt', 'r') as source:
    print(repr(source.readline()), repr(source.readline()), repr(source.read()), repr(source.read()), repr(source.readline()))
total = 0
with open('in.csv') as source:
    for line in source:
        parts = line.strip().split(',')
        total += int(parts[1])
print(total)
try:
    open('absent.txt')
except FileNotFoundError:
    print('FileNotFoundError')
try:
    open('absent.txt')
except OSError:
    print('OSError')
try:
    source.read()
except ValueError:
    print('ValueError')
try:
    out.write('x')
except ValueError:
    print('ValueError')
try:
    open('out.txt', 'q')
except ValueError:
    print('ValueError')
try:
    with open('log.txt', 'w') as log:
        log.write('begin\n')
        1 // 0
except ZeroDivisionError:
    print(open('log.txt').read())
print(input('name? '), input())
try:
    input()
except EOFError:
    print('EOFError')
raise ValueError('bad input')
