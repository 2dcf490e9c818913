a = [1, 2]
b = a
c = [9]
b.append(3)
c.append(4)
print(a)
