# Each row has a number, and the sum of all numbers down to it.
for row in range(1, 5001):
    print(f"{row},=SUM($A$1:A{row})")
