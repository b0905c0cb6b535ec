print("=COUNTIF(A2;" + "(" * 64 + "1" + ")" * 64 + ")")
print("1")
