print(1)
for row in range(2, 1_001):
    print(f"=A{row - 1}+1")
