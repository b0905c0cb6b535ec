print(1)
for row in range(2, 1_000_001):
    print("=A$1")
