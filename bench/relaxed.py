"""Links of code that is shortened: of all relaxations one in three is done in the first pass, or each pass lets one more of every
section be done."""

RELAXED = ("shortened", "stepwise")
# How many relaxations a section has, how far apart they are, and how many bytes each leaves out.
RELAXATIONS, STEP, LEFT_OUT = 40, 8, 4
SECTIONS = 10  # of an object
NEAR, TOO_FAR = 4096, 1


def plan_text(page, base):
    """One section of code in a load segment."""
    return (
        '{"page":%d,"base":["num",%d],"sections":[{"name":".text","attrs":5,"parts":[[4,false]]}],'
        '"segments":[{"kind":"load"}],"events":[["seg",0],["sec",0],["endseg",0]]}' % (page, base)
    )


def limit(shape, place):
    """The greatest distance of a relaxation from the start of its section.

    Where each pass lets one more be done, it is what is left of the distance when all before it are done.
    """
    if shape == "stepwise":
        return STEP * place + STEP // 2 - LEFT_OUT * place
    return NEAR if place % 3 == 0 else TOO_FAR


def object_text(number, shape):
    """An object: functions, each with a symbol at its start, to which its own relaxations go."""
    symbols = ",".join('{"at":["sec",%d,0]}' % index for index in range(SECTIONS))
    sections = ",\n".join(
        '{"slot":"must","part":0,"size":%d,"attrs":4,"relax":[%s]}'
        % (
            STEP * (RELAXATIONS + 1),
            ",".join(
                "[%d,%d,%d,%d]" % (STEP * place + STEP // 2, index, limit(shape, place), LEFT_OUT) for place in range(RELAXATIONS)
            ),
        )
        for index in range(SECTIONS)
    )
    return '{"kind":"object","name":"lib/source_%07d.o","symbols":[%s],"sections":[%s]}' % (number, symbols, sections)


def put_relaxed(writer, total, group_files, page, base, shape):
    """The whole description."""
    writer.put('{"options":{"relax":true},\n"plan":%s,\n"groups":[\n[{"kind":"prelude"}]' % plan_text(page, base))
    count = max(2, total // len(object_text(0, shape)))
    for number in range(count):
        start = ",\n[" if number % group_files == 0 else ","
        end = "]" if number == count - 1 or number % group_files == group_files - 1 else ""
        writer.put(start + object_text(number, shape) + end)
    writer.put("\n]}\n")
