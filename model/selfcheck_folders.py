"""Checks of the folders that model/compare makes: that a seed and a number always make the same one, and that a few
thousand of them show every way to end and every kind of board that is to be shown."""

import sleeprun
from folders import SEED, folder, folders
from folders_classes import shown

COUNT = 3000


def wanted_endings():
    """Every condition of every refusal that has one, every fault, and the sleep of a board."""
    told = {
        1: ("an empty file", "a missing file", "a file of 15 bytes", "a file of 4,097 bytes"),
        2: ("the mark", "the edition"),
        3: ("no devices", "65 devices", "more devices", "257 links", "more links", "a zero byte"),
        4: ("D too small", "D too large", "L too small", "L too large", "the links begin in the devices",
            "the links end in the devices", "the links inside the devices", "the devices inside the links"),
        5: ("no name", "a name that begins with a digit", "a name that begins with another byte",
            "a name with another byte", "a byte behind a name", "a repeated name", "itself as parent", "n as parent",
            "a parent above n", "a zero byte"),
        6: ("255 for a device", "n for a device", "a device above n", "itself as supplier", "a zero byte"),
        7: ["a circle of %s through %s, named" % (length, way) for length in ("two", "three", "all")
            for way in ("parents", "links", "parents and links")],
        8: ("a missing sheet", "an empty sheet", "a sheet too short", "a sheet too long")}
    endings = {"refused %d, %s" % (number, what) for number in told for what in told[number]}
    endings |= {"fault of %s in %s for its cell" % (who, phase) for phase in ("prepare", "suspend", "late", "noirq")
                for who in ("a register", "the controller", "a member", "a quiet one")}
    endings |= {"fault of %s in suspend for its %s" % what
                for what in (("a register", "word"), ("a member", "word"), ("a member", "controller"))}
    return endings | {"slept"}


def main():
    made = list(folders(SEED, COUNT))
    for number in range(COUNT - 1, 0, -97):
        assert folder(SEED, number) == made[number] != folder(SEED + 1, number)
    found = [shown(one.data, one.sheet, sleeprun.answer(one.data or b"", one.sheet or b"")[0]) for one in made]
    assert wanted_endings() <= {one.ending for one in found}, wanted_endings() - {one.ending for one in found}
    for size in (1, 63, 64):
        assert {one.kind for one in found if one.size == "%d to %d devices" % (size, size)} >= {"slept", "fault"}
    assert {one.mix for one in found if one.kind == "slept"} >= {"only register", "only bus", "only quiet"}
    assert {one.length for one in found if one.kind == "fault"} == {"4,096 bytes", "fewer bytes"}
    layouts = {one.layout for one in found if one.kind == "fault"}
    assert layouts >= {"devices, links", "links, devices", "gap, devices, gap, links, gap, odd",
                       "gap, links, gap, devices, gap, odd", "devices, an empty table inside"}
    print("ok: %d folders end in %d ways" % (COUNT, len({one.ending for one in found})))


if __name__ == "__main__":
    main()
