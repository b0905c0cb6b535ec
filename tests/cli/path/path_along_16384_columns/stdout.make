def letters(col):
    text = ""
    while col:
        col, digit = divmod(col - 1, 26)
        text = chr(65 + digit) + text
    return text


for col in range(1, 16385):
    print(f"{letters(col)}2")
print("XFD1")
