def slots_of(state, rounds):
    """The slots that a workload leaves where there was no series before, by docs/FORMATS.md."""

    def draw():
        nonlocal state
        state = (state * 6364136223846793005 + 1442695040888963407) % 2**64
        return state >> 33

    slots, value = [], 0
    for number in range(rounds):
        for _ in range(256):
            value += draw() % 201 - 100
            slots.append(value)
        if number % 4 == 3:
            slot = draw() % len(slots)
            slots[slot] = draw() % 2001 - 1000
    return slots


print("open 1")
for slot, value in enumerate(slots_of(7, 8)):
    print(f"view 1 demo 1 1 {slot} {slot + 1} auto where v = {value}")
