# 16,777,217 bytes: a record and empty lines.
print("=1+2+3" + "\n" * 16777211, end="")
