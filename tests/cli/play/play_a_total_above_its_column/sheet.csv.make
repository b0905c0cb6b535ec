# A1 adds up the cells from A3 on, each of which is A2.
print("=SUM(A3:A100000)")
print(1)
for row in range(3, 100_001):
    print("=$A$2")
