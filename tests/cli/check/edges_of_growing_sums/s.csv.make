print("".join(f"{r},=SUM($A$1:A{r})\n" for r in range(1, 1001)), end="")
