"""Scripts that runs are timed on."""
import random


def script(rows):
    """So many rows of drivers, of which a fifth are submits, and as many answers as submits."""
    draw = random.Random(rows)
    text = ["camscript1,a,b,c,d,e,f,g", *4 * ["sim,8,,,,,,"], *(f"dev,{d % 4},{d},0,4,,," for d in range(16)), *(f"lane,{a},,,,,," for a in range(4))]
    for k in range(rows):
        driver = k // 5 % 8
        path = f"{driver % 4}:{driver + 8 * (k // 40 % 2)}:0"
        text.append((
            f"submit,{driver},{path},{draw.randrange(1280)},4,none,,",
            f"freeze,{driver},{path},1,,,,",
            f"release,{driver},{path},1,,,,",
            f"adjust,{driver},{path},{draw.randrange(1, 5)},,,,",
            f"adjust,{driver},{path},4,,,,",
        )[k % 5])
    answers = [f"answer,{k % 4},{'0b' if draw.random() < 0.1 else '01'},00,,,," for k in range(rows // 5)]
    return "\n".join(text + answers) + "\n"
