# 255 references and one number.
print("=" + "A2+" * 255 + "1")
print("1")
