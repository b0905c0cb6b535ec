"""Texts of 32 bytes that have one hash: with these eight bytes behind the first sixteen, the fixed hash that files
texts multiplies the last eight by 0, whatever they are. The first sixteen are found by trying."""

WORD = 2**64 - 1
MULTIPLIER = 0x9E37_79B9_7F4A_7C15


def state_behind(front):
    low, high = (int.from_bytes(front[at:at + 8], "little") for at in (0, 8))
    product = (low ^ (0x243F_6A88_85A3_08D3 + 32)) * (high ^ MULTIPLIER)
    return (product & WORD ^ product >> 64).to_bytes(8, "little")


def plain(text):
    return all(48 <= byte < 123 for byte in text)


fronts = (b"label%011d" % number for number in range(100_000_000))
front = next(it for it in fronts if plain(state_behind(it)))
front = (front + state_behind(front)).decode()

for number in range(40_000):
    print(f"set A1 {front}{number:08}")
print(f"set A2 {front}{39_999:08}")
print("firm A1:B2")
