print("clear A1\n" * 1_048_577, end="")
