# What comes in and goes out by each booking, and the balance; below them the sums and their difference.
import csv
import pathlib
import subprocess
import sys

maker = pathlib.Path(__file__).resolve().parent / "sheet.csv.make"
text = subprocess.run([sys.executable, maker], capture_output=True, text=True, check=True).stdout
bookings = [(int(row[2]), int(row[3])) for row in list(csv.reader(text.splitlines()))[1:-1]]
balance = 0
print("sheet 0 C2:E1002")
for came, went in bookings:
    balance += came - went
    print(f"{came},{went},{balance}")
print(f"{sum(it[0] for it in bookings)},{sum(it[1] for it in bookings)},{balance}")
