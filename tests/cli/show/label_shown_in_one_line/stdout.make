print("sheet 0 A1:AO1", ",".join(41 * ["\"" + "x" * 8_192 + "\""]), sep="\n")
