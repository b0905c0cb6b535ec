print("set A1 =" + "A2+" * 253 + "SUMIF(A2;A2;A2)")
print("look A1")
