def chained(symbol, inner):
    """A chain of 14 operators, whose first has the inner formula at its right."""
    return f"1{symbol}{inner}" + f"{symbol}1" * 13


formula = "1"
for _ in range(64):
    formula = chained("=", chained("+", chained("*", chained("^", f"({formula}^1)"))))
formula = "=" + formula

print("batch")
print("set A2 " + formula)
print("set A3 " + formula)
print("end")
