# Eight clients set numbers, look at once, and look firmly now and then.
for client in range(8):
    print(f"client c{client}")
    for step in range(12):
        print(f"set A{(client * 7 + step * 5) % 20 + 1} {client * 100 + step}")
        print(f"{'firm' if step % 4 == 3 else 'look'} A{step + 1}:C{step + 5}")
        if step % 6 == 5:
            print(f"batch\nset A{client + 1} {step}\nset A{client + 9} =A{client + 10}\nend")
print("client late\nlook A1:C20")
