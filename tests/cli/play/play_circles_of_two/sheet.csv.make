# From the second row on the two cells of a row refer to each other, and the first one to A1 too.
print(1)
for row in range(2, 50_002):
    print(f"=B{row}+$A$1,=A{row}")
