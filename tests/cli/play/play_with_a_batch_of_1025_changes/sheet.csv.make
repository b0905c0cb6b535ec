for row in range(1025):
    print(0)
