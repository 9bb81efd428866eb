"""Small scripts that end alike whatever the order of their actors, and how each ends. `runs/run` runs them by seeds and by
threads. The same number always gives the same script."""

SCRIPTS = 1000
KINDS = (
    "plain",
    # Each device is frozen before its commands and released after them.
    "frozen",
    # Each device is frozen and stays so, in three rounds.
    "frozen for good",
    # There is one CCB at a time.
    "one ccb",
    # There are five events at most, and no command fails.
    "five events",
    # The commands of a driver are rounds apart.
    "pauses",
)
LIMITS = {"frozen for good": "limits,1024,3,1024,65535,,,\n", "one ccb": "limits,1,60,1024,65535,,,\n",
          "five events": "limits,1024,60,1024,5,,,\n"}
# Two adapters, of which the first has one opening or two, and three devices. Each adapter has a lane.
FRAME = "sim,{},,,,,,\nsim,1,,,,,,\ndev,0,1,0,1,,,\ndev,0,2,0,2,,,\ndev,1,3,0,1,,,\nlane,0,,,,,,\nlane,1,,,,,,\n"
# Each driver has a device to itself.
PATHS = "0:1:0", "0:2:0", "1:3:0"
COMMANDS = "1152,4,none", "128,4,none", "1152,4,qfrzdis"
# All is well; or the first command of each lane runs into a timeout, finds its disk busy, or fails for good.
ANSWERS = "", "0b,00", "0c,08", "04,00"


def shape(number):
    """The kind of a script, and how many drivers and how many commands of each it has."""
    return KINDS[number % 6], number // 24 % 4, number // 96 % 3 + 1


def driver_rows(driver, kind, commands):
    path = PATHS[driver]
    row = f"submit,{driver},{path},{COMMANDS[driver]},,\n" + (f"pause,{driver},{driver + 2},,,,,\n" if kind == "pauses" else "")
    freeze = f"freeze,{driver},{path},1,,,,\n" if kind in ("frozen", "frozen for good") else ""
    release = f"release,{driver},{path},1,,,,\n" if kind == "frozen" else ""
    return freeze + commands * row + release


def script(number):
    """The script of this number."""
    kind, drivers, commands = shape(number)
    rows = ["camscript1,a,b,c,d,e,f,g\n", LIMITS.get(kind, "limits,1024,60,1024,65535,,,\n"), FRAME.format(number // 6 % 2 + 1)]
    if number // 12 % 2 and kind != "five events":
        rows.append("lane,0,,,,,,\n")
    rows += [driver_rows(driver, kind, commands) for driver in range(drivers)]
    answer = ANSWERS[number // 288 % 4]
    if answer and kind != "five events":
        rows += [f"answer,{lane},{answer},,,,\n" for lane in (0, 1)]
    return "".join(rows)


def ending(number):
    """How each run of the script of this number ends. A device that is frozen for good holds its commands until the rounds are
    full, and a submit, a send and a completion of each of two commands are more than five events. All others have rounds enough."""
    kind, drivers, commands = shape(number)
    if kind == "frozen for good" and drivers:
        return "rounds full"
    if kind == "five events" and drivers * commands > 1:
        return "history full"
    return "drained"
