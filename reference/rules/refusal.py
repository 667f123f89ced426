"""What a run ends with in place of a layout."""

LAID_OUT, REFUSED, USAGE, UNREADABLE = 0, 1, 2, 3


class Refusal(Exception):
    """A status with the lines that explain it, which is one, but for references."""

    def __init__(self, status, *lines):
        super().__init__(*lines)
        self.status = status
        self.lines = lines


def usage():
    return Refusal(USAGE, "usage: lk_program layout N | gen SEED SIZE | why G F I | check | image N")


def not_json():
    return Refusal(UNREADABLE, "not JSON")


def wrong_shape(path):
    return Refusal(UNREADABLE, "not a link description: " + path)


def too_many(what, count, limit):
    return Refusal(REFUSED, "too many %s: %d, limit %d" % (what, count, limit))


def bad_link(rule, place):
    return Refusal(REFUSED, "bad link: rule %d, %s" % (rule, place))


def not_terminated(section, number):
    text = "String in merge-string section is not null-terminated: section %d, input %d"
    return Refusal(REFUSED, text % (section, number))


def too_large(section, bucket, offset, length):
    text = "Merge-string bucket too large: section %d, bucket %d, offset %d, length %d"
    return Refusal(REFUSED, text % (section, bucket, offset, length))


def merge_offset(place):
    return Refusal(REFUSED, "merge offset: " + place)


def references(lines):
    return Refusal(REFUSED, *lines)


def address_overflow(place):
    return Refusal(REFUSED, "address overflow: " + place)


def in_no_segment(section):
    return Refusal(REFUSED, "section %d is in no segment" % section)


def region_duplicate(region):
    return Refusal(REFUSED, "region %d already defined" % region)


def region_unknown(section):
    return Refusal(REFUSED, "region of section %d not declared" % section)


def region_overflow(region, excess):
    return Refusal(REFUSED, "region %d overflowed by %d bytes" % (region, excess))


def outside_region(address, event):
    return Refusal(REFUSED, "address 0x%x at event %d is outside its region" % (address, event))


def location_backwards(start, location):
    text = "Cannot move location counter backwards (from 0x%x to 0x%x)"
    return Refusal(REFUSED, text % (start, location))


def base_too_low(base, headers):
    text = "base address (0x%x) is less than the size of headers (0x%x)"
    return Refusal(REFUSED, text % (base, headers))


def wrong_expression(place, cause):
    return Refusal(REFUSED, "expression at %s: %s" % (place, cause))


def out_of_reach(kind, place, index):
    return Refusal(REFUSED, "out of reach: %s %d %d %d %d" % (kind, *place, index))


def no_image(why):
    return Refusal(REFUSED, "no image: " + why)
