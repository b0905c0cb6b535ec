print("1,=A1*$A$1")
for row in range(2, 1_027):
    print(f"{row},")
