# A sum of 256 references.
print("=" + "+".join(["A2"] * 256))
print("3")
