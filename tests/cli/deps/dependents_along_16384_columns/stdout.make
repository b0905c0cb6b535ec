def letters(col):
    text = ""
    while col:
        col, digit = divmod(col - 1, 26)
        text = chr(65 + digit) + text
    return text


for col in range(2, 16385):
    print(f"{letters(col)}1:{letters(col)}2")
