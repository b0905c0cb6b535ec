def letters(col):
    text = ""
    while col:
        col, digit = divmod(col - 1, 26)
        text = chr(65 + digit) + text
    return text


print(",".join(f"=SUM($A$2:{letters(col)}2)" for col in range(1, 16385)))
print(",".join(f"={letters(col - 1)}2+1" if col > 1 else "1" for col in range(1, 16385)))
