print("done 0")
for appends in range(1, 23):
    print("done", 256 * appends)
print("refused 21 63 62")
print("done 5632")
print("done 5633")
