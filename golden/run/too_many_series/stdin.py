# A catalog has 512 records. A name that is there is refused by that, also when there is no room.
for number in range(513):
    print(f"create s{number} {number} 60 0")
print("create s511 0 1 0")
