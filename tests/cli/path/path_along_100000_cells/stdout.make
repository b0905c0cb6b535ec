for row in range(1, 100_001):
    print(f"A{row}")
