"""The words of a text, the most frequent first."""
import sys


def words_of(line):
    cleaned = ''
    for letter in line.lower():
        if letter.isdigit() or 'a' <= letter and letter <= 'z':
            cleaned += letter
        else:
            cleaned += ' '
    return cleaned.split()


def count(path):
    counts = {}
    with open(path) as text:
        for line in text:
            for word in words_of(line):
                counts[word] = counts.get(word, 0) + 1
    return counts


def by_count(counts):
    pairs = []
    for word in counts:
        pairs.append((-counts[word], word))
    pairs.sort()
    return pairs


counts = count(sys.argv[1])
total = sum(counts.values())
print(total, 'words,', len(counts), 'different')
for pair in by_count(counts)[:5]:
    print(str(-pair[0]).rjust(3), pair[1])
