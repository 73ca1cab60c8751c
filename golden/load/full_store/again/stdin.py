for time in range(5633):
    print(time, 0, sep=",")
