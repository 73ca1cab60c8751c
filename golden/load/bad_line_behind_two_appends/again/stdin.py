for time in range(600):
    print(time, 0, sep=",")
print("x")
