# Expected output of `ranking`, by sorted lists of Python. A record is (key, text).
def offer(rate, number, shares):
    return ((rate, number), f"rate {rate} number {number} shares {shares}")

def code(letters):
    assert len(letters) == 12
    return (tuple(letters.encode("ascii")), letters)

def run(title, size, steps):
    print(title)
    held = []
    for step in steps:
        verb = step[0]
        if verb == "put":
            item = step[1]
            said = f"put {item[1]}"
            if any(k == item[0] for k, _ in held):
                answer = "refused, present"
            elif len(held) == size:
                answer = "refused, full"
            else:
                held = sorted(held + [item], key=lambda r: r[0])
                answer = "accepted"
        elif verb == "take":
            place = step[1]
            said = f"take from place {place}"
            if place < len(held):
                answer = f"out came {held[place][1]}"
                held = [r for i, r in enumerate(held) if i != place]
            else:
                answer = "nothing came out"
        else:
            place, item = step[1], step[2]
            said = f"replace at place {place} by {item[1]}"
            if place < len(held) and held[place][0] == item[0]:
                answer = f"out came {held[place][1]}"
                held = held[:place] + [item] + held[place + 1:]
            else:
                answer = "nothing came out"
        print(f"{said}: {answer}")
        full = ", full" if len(held) == size else ""
        print(f"    {len(held)}{full}:" + "".join(f" [{t}]" for _, t in held))

run("offers, lowest rate first, then lowest number, in 3 places", 3, [
    ("put", offer(300, 7, 100)),
    ("put", offer(250, 9, 40)),
    ("put", offer(250, 9, 41)),
    ("put", offer(300, 2, 10)),
    ("put", offer(300, 7, 5)),
    ("put", offer(100, 12, 60)),
    ("take", 3),
    ("take", 1),
    ("take", 2),
    ("replace", 0, offer(250, 9, 75)),
    ("replace", 0, offer(250, 8, 75)),
    ("replace", 2, offer(300, 7, 75)),
    ("put", offer(100, 12, 60)),
    ("put", offer(400, 1, 80)),
    ("take", 0),
    ("take", 0),
    ("take", 0),
    ("take", 0),
])
run("codes, by the values of their characters from the left, in 3 places", 3, [
    ("put", code("MA0000000027")),
    ("put", code("AB9000000000")),
    ("put", code("AB000000000A")),
    ("put", code("AB9000000000")),
    ("put", code("AB0000000009")),
    ("take", 5),
    ("take", 2),
    ("take", 2),
    ("put", code("AB9000000000")),
    ("put", code("AB0000000009")),
    ("replace", 1, code("AB000000000A")),
    ("replace", 1, code("AB000000000B")),
    ("take", 0),
    ("put", code("ZZ0000000001")),
])
