"""Links with more code than branches reach: mostly branches inside a file, or each to a function of another file."""

THUNKED = ("branches", "far")
# All code, in bytes, and how far a branch reaches: some seventeen blocks. An object's code is shorter than what planning leaves free.
CODE, RANGE = 4 << 30, 128 << 20
MOST_OBJECT_CODE = 1 << 20
# How many branches an object has, and how many of them go to other files.
BRANCHES = 40
ELSEWHERE = {"branches": 2, "far": BRANCHES}
# The bytes of an object's text, about.
OBJECT_BYTES = {"branches": 1_500, "far": 3_300}


def plan_text(page, base):
    """The plan: one output section of code."""
    return (
        '{"page":%d,"base":["num",%d],"sections":[{"name":".text","attrs":5,"parts":[[16,false]]}],'
        '"segments":[{"kind":"load"}],"events":[["seg",0],["sec",0],["endseg",0]],"primary":0}' % (page, base)
    )


def object_text(rng, number, count, shape):
    """An object: one function, and references to functions of others."""
    elsewhere = ELSEWHERE[shape]
    symbols = ['{"at":["sec",0,0],"name":"f%07d"}' % number]
    for _ in range(elsewhere):
        symbols.append('{"at":["undef"],"def":%d}' % (rng.randrange(count) * (1 + elsewhere)))
    named = [1 + place % elsewhere if place < elsewhere else 0 for place in range(BRANCHES)]
    branches = ",".join('[%d,"Relative",%d,-4,true]' % (8 * place, symbol) for place, symbol in enumerate(named))
    return '{"kind":"object","name":"lib/source_%07d.o","symbols":[%s],"sections":[{"slot":"must","part":0,"size":%d,"attrs":4,"relocs":[%s]}]}' % (
        number,
        ",".join(symbols),
        min(CODE // count, MOST_OBJECT_CODE),
        branches,
    )


def put_thunked(writer, rng, total, group_files, page, base, shape):
    """The whole description."""
    writer.put('{"options":{"branch_range":%d},\n"plan":%s,\n"groups":[\n[{"kind":"prelude"}]' % (RANGE, plan_text(page, base)))
    count = max(2, total // OBJECT_BYTES[shape])
    for number in range(count):
        start = ",\n[" if number % group_files == 0 else ","
        end = "]" if number == count - 1 or number % group_files == group_files - 1 else ""
        writer.put(start + object_text(rng, number, count, shape) + end)
    writer.put("\n]}\n")
