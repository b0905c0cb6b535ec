# It is no formula of edition 1, so its references are not counted.
print("=" + "A2+" * 253 + "SUMIF(A2;A2;A2)")
print("1")
