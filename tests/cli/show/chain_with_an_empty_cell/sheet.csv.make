print(1)
for row in range(2, 100_001):
    print('""' if row == 50_000 else f"=A{row - 1}+1")
