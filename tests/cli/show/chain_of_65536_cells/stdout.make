print("sheet 0 A1:BL1024")
for row in range(1024):
    print(",".join(str(cell + 1) for cell in range(64 * row, 64 * row + 64)))
