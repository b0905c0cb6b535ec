# The first row and the first column count; each other cell adds its column's head to its row's.
def name(cell):
    """The name of a cell, counted row by row from 0 in a sheet of 64 columns."""
    row, col = divmod(cell, 64)
    letters = "ABCDEFGHIJKLMNOPQRSTUVWXYZ"
    return ("" if col < 26 else letters[col // 26 - 1]) + letters[col % 26] + str(row + 1)


for row in range(1024):
    print(",".join(f"={name(cell % 64)}+{name(cell // 64 * 64)}" if cell > 63 and cell % 64 else str(cell % 64 + cell // 64) for cell in range(64 * row, 64 * row + 64)))
