# A sum of 255 references.
print("=" + "+".join(["A2"] * 255))
print("3")
