# A field of 8,192 digits, and a formula of 8,192 bytes.
print("0" * 8191 + "7," + "=" + "0" * 8190 + "8")
