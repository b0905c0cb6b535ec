print("=" + "+".join(["A2"] * 256))
print("=" + "(" * 65)
