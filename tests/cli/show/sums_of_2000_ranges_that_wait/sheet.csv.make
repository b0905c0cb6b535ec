# Each cell is one more than the greatest of all cells below it.
for row in range(1, 2000):
    print(f"=MAX(A{row + 1}:A2000)+1")
print(1)
