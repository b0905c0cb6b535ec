# As many records as a sheet may have: the line is none of them.
print("#edition 2")
print("1\n" * 1048575 + "=COUNTIF(A1:A1048575;1)")
