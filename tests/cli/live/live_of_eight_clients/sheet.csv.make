# A column of numbers, a column of running totals, and one that adds each number to the total.
print("1,=A1,=A1+B1")
for row in range(2, 21):
    print(f"{row},=B{row - 1}+A{row},=A{row}+B{row}")
