# 16,777,217 bytes, all of them line ends.
print("\n" * 16777217, end="")
