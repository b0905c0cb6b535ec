print("0,=SUM(A1:A1025)")
for row in range(1024):
    print(0)
