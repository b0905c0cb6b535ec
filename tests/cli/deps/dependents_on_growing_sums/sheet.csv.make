for row in range(1, 1_001):
    print(f"{row},=SUM($A$1:A{row})")
