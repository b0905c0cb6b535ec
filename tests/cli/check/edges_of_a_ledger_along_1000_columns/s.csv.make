LETTERS = "ABCDEFGHIJKLMNOPQRSTUVWXYZ"


def letters(col):
    name = ""
    while col:
        col, digit = divmod(col - 1, 26)
        name = LETTERS[digit] + name
    return name


names = [letters(col) for col in range(1, 1001)]
print(",".join(str(col % 9) for col in range(1, 1001)))
print(",".join(str(col % 7) for col in range(1, 1001)))
print(",".join(f"={name}1-{name}2" for name in names))
print(",".join(["=A3"] + [f"={before}4+{name}3" for before, name in zip(names, names[1:])]))
