# A sum of 252 references, and one that is selected: 255 references.
print("#edition 2")
print("=" + "A2+" * 252 + "SUMIF(A2;A2;A2)")
print("1")
