# 16,777,217 bytes: a comment and empty lines.
print("# none" + "\n" * 16777211, end="")
