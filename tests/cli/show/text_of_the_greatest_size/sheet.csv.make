# 16,777,216 bytes: a record and empty lines.
print("=1+2+3" + "\n" * 16777210, end="")
