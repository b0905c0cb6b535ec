# Four clients edit and look at windows that overlap, 200 times each, and look firmly at last.
for client in range(4):
    print(f"client c{client}")
    for step in range(200):
        print(f"set A{(client * 3 + step) % 8 + 1} {client * 1000 + step}")
        row = (client + step) % 6 + 1
        print(f"look A{row}:C{row + 2}")
    print("firm A1:C8")
