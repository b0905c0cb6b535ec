print("firm A1:A65536\n" * 65, end="")
