for row in range(1, 1_001):
    print(f"A{row}")
