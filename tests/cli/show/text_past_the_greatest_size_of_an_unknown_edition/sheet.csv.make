# 16,777,217 bytes: the line of an edition that is none, and line ends.
print("#edition 3" + "\n" * 16777207, end="")
