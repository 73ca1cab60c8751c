TEXTS = [
    "t<1", "v > 10 or t >= 100 and not v = 12", " t<=1 ", "t!=-1", "v>=-9999999999999999999", "(t=1)", "not(t=1)and(v<2)",
    "not not t=1", "((t=0)or(v=0)and(t=2))", "t < 1 or v < 2 or t > 3", "v= -1",
    # 64 of `not` and `(` are open at once, and each `not` is closed behind its operand
    "not " * 64 + "v > 0", "(" * 64 + "v > 0" + ")" * 64, "not t=1 and not v=2 or " * 350 + "t=3", "(t=1)or" * 1000 + "(t=1)",
]
print("create a 0 1 0\nopen 1")
for text in TEXTS:
    print("view 1 a 1 1 0 1 auto where", text)
# the longest line
view = "view 1 a 1 1 0 1 auto where "
print(view + ("t=1 or " * 1163 + "not t=100").rjust(8192 - len(view)))
