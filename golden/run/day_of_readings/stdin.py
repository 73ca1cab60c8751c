def reading(second):
    if second % 3600 == 1800:
        return "-"
    return "2000" if second < 43200 else "2500"


print("create temp 0 1 2")
for begin in range(0, 86400, 256):
    print("append temp", *(reading(second) for second in range(begin, min(begin + 256, 86400))))
print("open 1")
print("view 1 temp 675 300 0 86400 auto")
print("zoom 1 43200 46800")
print("pan 1 3600")
