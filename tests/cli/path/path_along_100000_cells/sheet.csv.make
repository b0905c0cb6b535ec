print(1)
for row in range(2, 100_001):
    print(f"=A{row - 1}+1")
