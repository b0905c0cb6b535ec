# A column of numbers, a column of running totals, and one that adds two numbers.
print("1,=A1,=A1+A2")
for row in range(2, 33):
    print(f"{row},=B{row - 1}+A{row},=A{row}+A{row % 32 + 1}")
