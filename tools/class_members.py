"""The methods of a class file, and a native one given code; for the scripts beside."""
import struct

# How many bytes behind its tag an entry of the constant pool has; a text says it itself.
ENTRY_BYTES = {3: 4, 4: 4, 5: 8, 6: 8, 7: 2, 8: 2, 9: 4, 10: 4, 11: 4, 12: 4}
NATIVE = 0x0100


def u2(data, place):
    return struct.unpack_from(">H", data, place)[0]


def behind_attributes(data, place):
    count, place = u2(data, place), place + 2
    for _ in range(count):
        place += 6 + struct.unpack_from(">I", data, place + 2)[0]
    return place


class Members:
    """A class file: its pool's texts and classes by their indices, its superclass, and the places of its
    methods."""

    def __init__(self, data):
        self.data, self.texts, self.classes = data, {}, {}
        place = self.read_pool()
        self.super = self.texts.get(self.classes.get(u2(data, place + 4)))
        fields = place + 8 + 2 * u2(data, place + 6)
        _, behind = self.table(fields)
        self.methods, _ = self.table(behind)

    def read_pool(self):
        place, index = 10, 1
        while index < u2(self.data, 8):
            tag = self.data[place]
            if tag == 1:
                length = u2(self.data, place + 1)
                self.texts[index] = self.data[place + 3:place + 3 + length]
                place += 3 + length
            else:
                if tag == 7:
                    self.classes[index] = u2(self.data, place + 1)
                place += 1 + ENTRY_BYTES[tag]
            index += 2 if tag in (5, 6) else 1
        return place

    def table(self, place):
        """The places of the members of a table, and the place behind it."""
        found, count, place = [], u2(self.data, place), place + 2
        for _ in range(count):
            found.append(place)
            place = behind_attributes(self.data, place + 6)
        return found, place

    def name(self, place):
        """The name of a member and its descriptor."""
        return self.texts[u2(self.data, place + 2)], self.texts[u2(self.data, place + 4)]


def answering(data, method, answer):
    """The class file in which this native method `()I` without attributes has code that gives the answer."""
    found = Members(data)
    code = next(index for index, text in found.texts.items() if text == b"Code")
    place = next(place for place in found.methods if found.name(place) == (method, b"()I"))
    flags, behind = u2(data, place), place + 8
    assert flags & NATIVE and u2(data, place + 6) == 0
    body = struct.pack(">HHIBhBHH", 1, 0, 4, 17, answer, 172, 0, 0)  # sipush, ireturn
    attributes = struct.pack(">HHI", 1, code, len(body)) + body
    return data[:place] + struct.pack(">H", flags & ~NATIVE) + data[place + 2:place + 6] + attributes + data[behind:]
