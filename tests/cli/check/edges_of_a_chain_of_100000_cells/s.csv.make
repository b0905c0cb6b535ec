print("".join(f"=A{r - 1}+1\n" if r > 1 else "1\n" for r in range(1, 100_001)), end="")
