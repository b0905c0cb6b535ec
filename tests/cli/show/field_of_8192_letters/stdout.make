print("sheet 0 A1:A1")
print('"' + "x" * 8192 + '"')
