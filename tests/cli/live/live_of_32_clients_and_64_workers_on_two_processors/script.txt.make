# Thirty-two clients of a hundred commands each: edits by turns with looks, the last of which is firm.
for client in range(32):
    print(f"client c{client}")
    for step in range(50):
        print(f"set A{(client * 3 + step) % 32 + 1} {client * 1000 + step}")
        row = (client + step) % 30 + 1
        print(f"{'firm' if step == 49 else 'look'} A{row}:C{row + 2}")
