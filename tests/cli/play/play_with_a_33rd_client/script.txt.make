for client in range(1, 34):
    print(f"client c{client}")
