print("#edition 2")
print("=" + "A2+" * 253 + "SUMIF(A2;A2;A2)")
print("1")
