letters = "ABCDEFGHIJKLMNOPQRSTUVWXYZ"


def name(col):
    return name((col - 1) // 26) + letters[(col - 1) % 26] if col else ""


for col in range(1, 16_385):
    print(f"{name(col)}1:{name(col)}1048576")
