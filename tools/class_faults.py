"""The first fault of a class file, by a reader of its own: written from the format (JVMS, second edition,
chapter 4) and the order of faults that README.md states, and sharing nothing with the proved reader.

`read(data)` gives the class and what `weave` prints behind the file's name, or None where the bytes are a
class file; `world_fault(class)` gives what it prints behind the class's name where the class is alone beside
the library, or None where that has no fault; `printed(class.name)` is the name as it is printed."""
import struct


class Fault(Exception):
    pass


ONE, TWO, THREE = 1, 2, 3


def is_modified_utf8(text):
    at = 0
    while at < len(text):
        lead = text[at]
        if 0x01 <= lead <= 0x7F:
            size, value, low = 1, lead, 0
        elif lead & 0xE0 == 0xC0:
            size = 2
        elif lead & 0xF0 == 0xE0:
            size = 3
        else:
            return False
        part = text[at:at + size]
        if len(part) < size or any(b & 0xC0 != 0x80 for b in part[1:]):
            return False
        if size == 2:
            value = (lead & 0x1F) << 6 | part[1] & 0x3F
            if value != 0 and value < 0x80:
                return False
        if size == 3:
            value = (lead & 0x0F) << 12 | (part[1] & 0x3F) << 6 | part[2] & 0x3F
            if value < 0x800:
                return False
        at += size
    return True


def units(text):
    result, at = [], 0
    while at < len(text):
        lead = text[at]
        if lead < 0x80:
            result.append(lead)
            at += 1
        elif lead < 0xE0:
            result.append((lead & 0x1F) << 6 | text[at + 1] & 0x3F)
            at += 2
        else:
            result.append((lead & 0x0F) << 12 | (text[at + 1] & 0x3F) << 6 | text[at + 2] & 0x3F)
            at += 3
    return result


def is_part(text):
    """One part of a name: a text of modified UTF-8."""
    if not text or not is_modified_utf8(text):
        return False
    pending = False
    for unit in units(text):
        if pending:
            if not 0xDC00 <= unit < 0xE000:
                return False
            pending = False
        elif 0xD800 <= unit < 0xDC00:
            pending = True
        elif 0xDC00 <= unit < 0xE000:
            return False
        elif unit in (0, ord("."), ord(";"), ord("["), ord("/")):
            return False
    return not pending


def is_class_name(text):
    return all(is_part(part) for part in text.split(b"/"))


def field_type(text, at):
    """The end and the slots of the field type that begins there, or None."""
    dims = 0
    while at < len(text) and text[at] == ord("["):
        dims += 1
        at += 1
    if dims > 255 or at >= len(text):
        return None
    letter = chr(text[at])
    if letter == "L":
        end = text.find(b";", at)
        if end < 0 or not is_class_name(text[at + 1:end]):
            return None
        return end + 1, 1
    if letter in "BCFISZ":
        return at + 1, 1
    if letter in "JD":
        return at + 1, 1 if dims else 2
    return None


def is_field_type(text):
    found = field_type(text, 0)
    return found is not None and found[0] == len(text)


def method_slots(text):
    if not text.startswith(b"("):
        return None
    at, slots = 1, 0
    while True:
        if at >= len(text):
            return None
        if text[at] == ord(")"):
            break
        found = field_type(text, at)
        if found is None:
            return None
        at, more = found
        slots += more
    if slots > 255:
        return None
    result = text[at + 1:]
    return slots if result == b"V" or is_field_type(result) else None


def dimensions(text):
    return len(text) - len(text.lstrip(b"["))


class Reader:
    def __init__(self, data, at, end, cut):
        self.data, self.at, self.end, self.cut = data, at, end, cut

    def take(self, size):
        if self.end - self.at < size:
            raise Fault(self.cut)
        part = self.data[self.at:self.at + size]
        self.at += size
        return part

    def u1(self):
        return self.take(1)[0]

    def u2(self):
        return int.from_bytes(self.take(2), "big")

    def u4(self):
        return int.from_bytes(self.take(4), "big")


class ClassReader:
    def __init__(self, data):
        self.data = data
        self.pool = {}
        self.members = []

    def wrong(self, index):
        raise Fault(f"pool-ref {index}")

    def text(self, index):
        entry = self.pool.get(index)
        return entry[1] if entry is not None and entry[0] == 1 else None

    def class_name(self, index):
        entry = self.pool.get(index)
        return self.text(entry[1]) if entry is not None and entry[0] == 7 else None

    def name_and_type(self, index):
        entry = self.pool.get(index)
        if entry is None or entry[0] != 12:
            return None
        return self.text(entry[1]), self.text(entry[2])

    def need_class(self, index):
        if self.class_name(index) is None:
            self.wrong(index)

    def need_part(self, index):
        text = self.text(index)
        if text is None or not is_part(text):
            self.wrong(index)

    def read(self):
        top = Reader(self.data, 0, len(self.data), f"truncated {len(self.data)}")
        if top.u4() != 0xCAFEBABE:
            raise Fault("magic")
        top.u2()
        self.major = top.u2()
        if not 46 <= self.major <= 49:
            raise Fault(f"version {self.major}")
        self.read_pool(top)
        self.flags = top.u2()
        this = top.u2()
        self.name = self.class_name(this)
        if self.name is None or not is_class_name(self.name):
            self.wrong(this)
        above = top.u2()
        self.need_class(above)
        self.above = self.class_name(above)
        self.interfaces = []
        for _ in range(top.u2()):
            index = top.u2()
            self.need_class(index)
            self.interfaces.append(self.class_name(index))
        for _ in range(top.u2()):
            self.read_member(top, None)
        for number in range(top.u2()):
            self.read_member(top, number)
        self.read_attributes(top, {b"InnerClasses": self.inner_classes, b"Synthetic": self.synthetic})
        if top.at != len(self.data):
            raise Fault(f"trailing {top.at}")

    def read_pool(self, top):
        count = top.u2()
        if count == 0:
            self.wrong(0)
        index = 1
        while index < count:
            tag = top.u1()
            if tag in (5, 6) and index + 1 >= count:
                raise Fault(f"pool-tag {index} {tag}")
            if tag == 1:
                text = top.take(top.u2())
                if not is_modified_utf8(text):
                    raise Fault(f"utf8 {index}")
                self.pool[index] = (1, text)
            elif tag in (3, 4):
                self.pool[index] = (tag, top.u4())
            elif tag in (5, 6):
                self.pool[index] = (tag, top.take(8))
                index += 1
            elif tag in (7, 8):
                self.pool[index] = (tag, top.u2())
            elif tag in (9, 10, 11, 12):
                self.pool[index] = (tag, top.u2(), top.u2())
            else:
                raise Fault(f"pool-tag {index} {tag}")
            index += 1
        for index in sorted(self.pool):
            if not self.is_sound(self.pool[index]):
                self.wrong(index)

    def is_sound(self, entry):
        tag = entry[0]
        if tag == 7:
            name = self.text(entry[1])
            return name is not None and (is_class_name(name) or name.startswith(b"[") and is_field_type(name))
        if tag == 8:
            return self.text(entry[1]) is not None
        if tag in (9, 10, 11):
            if self.pool.get(entry[1], (0,))[0] != 7 or self.pool.get(entry[2], (0,))[0] != 12:
                return False
            type_ = self.name_and_type(entry[2])[1]
            if type_ is None:
                return True
            return method_slots(type_) is None if tag == 9 else not is_field_type(type_)
        if tag == 12:
            name, type_ = self.text(entry[1]), self.text(entry[2])
            if name is None or type_ is None or not is_part(name):
                return False
            return is_field_type(type_) or method_slots(type_) is not None
        return True

    def read_member(self, top, method):
        flags = top.u2()
        name = top.u2()
        self.need_part(name)
        index = top.u2()
        type_ = self.text(index)
        self.members.append((self.text(name), type_))
        if method is None:
            if type_ is None or not is_field_type(type_):
                self.wrong(index)
            known = {b"ConstantValue": self.constant, b"Synthetic": self.synthetic}
        else:
            slots = method_slots(type_) if type_ is not None else None
            if slots is None or slots + (0 if flags & 8 else 1) > 255:
                self.wrong(index)
            known = {b"Code": lambda inner: self.code(inner, method), b"Exceptions": self.exceptions, b"Synthetic": self.synthetic}
        self.read_attributes(top, known)

    def read_attributes(self, reader, known, once=True):
        known = dict(known)
        for _ in range(reader.u2()):
            index = reader.u2()
            name = self.text(index)
            if name is None:
                self.wrong(index)
            at = reader.at
            length = reader.u4()
            start = reader.at
            reader.take(length)
            form = known.pop(name, None) if once else known.get(name)
            if form is not None:
                inner = Reader(self.data, start, start + length, f"attribute-length {at}")
                after = form(inner)
                if inner.at != inner.end:
                    raise Fault(inner.cut)
                if after is not None:
                    after()

    def synthetic(self, inner):
        pass

    def constant(self, inner):
        index = inner.u2()
        if self.pool.get(index, (0,))[0] not in (3, 4, 5, 6, 8):
            self.wrong(index)

    def exceptions(self, inner):
        for _ in range(inner.u2()):
            self.need_class(inner.u2())

    def inner_classes(self, inner):
        for _ in range(inner.u2()):
            self.need_class(inner.u2())
            outer = inner.u2()
            if outer:
                self.need_class(outer)
            name = inner.u2()
            if name:
                self.need_part(name)
            inner.u2()

    def lines(self, inner):
        for _ in range(inner.u2()):
            inner.take(2)
            inner.take(2)

    def variables(self, inner, typed):
        for _ in range(inner.u2()):
            inner.u2()
            inner.u2()
            self.need_part(inner.u2())
            index = inner.u2()
            type_ = self.text(index)
            if type_ is None or typed and not is_field_type(type_):
                self.wrong(index)
            inner.u2()

    def code(self, inner, method):
        inner.u2()
        inner.u2()
        code = inner.take(inner.u4())
        table = []
        for _ in range(inner.u2()):
            entry = (inner.u2(), inner.u2(), inner.u2())
            caught = inner.u2()
            if caught:
                self.need_class(caught)
            table.append(entry)
        self.read_attributes(inner, {
            b"LineNumberTable": self.lines,
            b"LocalVariableTable": lambda part: self.variables(part, True),
            b"LocalVariableTypeTable": lambda part: self.variables(part, False),
        }, once=False)

        def judge():
            pc = self.code_fault(code, table)
            if pc is not None:
                raise Fault(f"code {method} {pc}")
        return judge

    def code_fault(self, code, table):
        if not 0 < len(code) <= 65535:
            return 0
        places, pc = [], 0
        while pc < len(code):
            found = decode(code, pc)
            if found is None:
                return pc
            places.append((pc,) + found)
            pc += found[0]
        starts = {place[0] for place in places}
        for pc, size, op, operand, targets in places:
            if not self.takes(op, operand):
                return pc
        for pc, size, op, operand, targets in places:
            if any(pc + offset not in starts for offset in targets):
                return pc
        for start, end, handler in table:
            if start not in starts:
                return start
            if end not in starts and end != len(code):
                return end
            if handler not in starts:
                return handler
        return None

    def takes(self, op, operand):
        tag = self.pool.get(operand, (0,))[0] if isinstance(operand, int) else 0
        if op in (18, 19):
            return tag in (3, 4, 8) or tag == 7 and self.major >= 49
        if op == 20:
            return tag in (5, 6)
        if 178 <= op <= 181:
            return tag == 9
        if 182 <= op <= 184:
            return tag == 10
        if op == 185:
            return tag == 11
        if op in (187, 192, 193):
            return tag == 7
        if op == 189:
            return tag == 7 and dimensions(self.class_name(operand)) <= 254
        if op == 188:
            return 4 <= operand <= 11
        if op == 197:
            index, dims = operand
            name = self.class_name(index)
            return name is not None and 1 <= dims <= dimensions(name)
        return True


WIDTHS = {16: 1, 17: 2, 18: 1, 19: 2, 20: 2, 132: 2, 169: 1, 185: 4, 188: 1, 197: 3}
for _op in list(range(21, 26)) + list(range(54, 59)):
    WIDTHS[_op] = 1
for _op in list(range(153, 169)) + [198, 199]:
    WIDTHS[_op] = 2
for _op in list(range(178, 185)) + [187, 189, 192, 193]:
    WIDTHS[_op] = 2
for _op in (200, 201):
    WIDTHS[_op] = 4
BRANCHES = set(range(153, 169)) | {198, 199, 200, 201}
POOLED = {18, 19, 20} | set(range(178, 185)) | {187, 189, 192, 193}


def decode(code, pc):
    """(size, opcode, operand, offsets) of the instruction there, or None."""
    op = code[pc]
    if op > 201 or op == 186:
        return None

    def s4(at):
        return struct.unpack(">i", code[at:at + 4])[0]

    if op in (170, 171):
        table = pc + 4 - pc % 4
        if op == 170:
            if table + 12 > len(code):
                return None
            low, high = s4(table + 4), s4(table + 8)
            if high < low:
                return None
            count = high - low + 1
            end = table + 12 + 4 * count
            if end > len(code):
                return None
            return end - pc, op, None, [s4(table)] + [s4(table + 12 + 4 * i) for i in range(count)]
        if table + 8 > len(code):
            return None
        count = s4(table + 4)
        end = table + 8 + 8 * count
        if count < 0 or end > len(code):
            return None
        keys = [s4(table + 8 + 8 * i) for i in range(count)]
        if any(a >= b for a, b in zip(keys, keys[1:])):
            return None
        return end - pc, op, None, [s4(table)] + [s4(table + 12 + 8 * i) for i in range(count)]
    if op == 196:
        if pc + 1 >= len(code):
            return None
        wide = code[pc + 1]
        if wide == 132:
            size = 6
        elif 21 <= wide <= 25 or 54 <= wide <= 58 or wide == 169:
            size = 4
        else:
            return None
        return (size, op, None, []) if pc + size <= len(code) else None
    size = 1 + WIDTHS.get(op, 0)
    if pc + size > len(code):
        return None
    operand, offsets = None, []
    if op in BRANCHES:
        offsets = [int.from_bytes(code[pc + 1:pc + size], "big", signed=True)]
    elif op in POOLED or op == 188:
        operand = int.from_bytes(code[pc + 1:pc + size], "big")
    elif op == 185:
        operand = int.from_bytes(code[pc + 1:pc + 3], "big")
    elif op == 197:
        operand = (int.from_bytes(code[pc + 1:pc + 3], "big"), code[pc + 3])
    return size, op, operand, offsets


def read(data):
    """The class of a class file, and None; or what was read up to the first fault, and the fault."""
    reader = ClassReader(data)
    try:
        reader.read()
    except Fault as fault:
        return reader, str(fault)
    return reader, None


# The library, the classes that are there without a class file: the final ones, the interfaces, the others.
FINAL = {b"java/lang/" + name for name in (b"Class", b"String", b"StringBuffer", b"StringBuilder", b"System", b"Integer", b"Long", b"Short", b"Byte", b"Character", b"Boolean", b"Float", b"Double")}
INTERFACES = {b"java/lang/Runnable", b"java/lang/Cloneable", b"java/lang/Comparable", b"java/lang/CharSequence", b"java/io/Serializable"}
OPEN = {b"java/lang/" + name for name in (
    b"Object", b"Throwable", b"Exception", b"Error", b"RuntimeException", b"ClassNotFoundException", b"LinkageError", b"NoClassDefFoundError",
    b"ArithmeticException", b"ArrayStoreException", b"ClassCastException", b"IllegalArgumentException", b"IllegalStateException",
    b"IllegalMonitorStateException", b"IndexOutOfBoundsException", b"NegativeArraySizeException", b"NullPointerException",
    b"UnsupportedOperationException", b"ArrayIndexOutOfBoundsException", b"StringIndexOutOfBoundsException")}
OPEN |= {b"java/io/PrintStream", b"org/aspectj/lang/NoAspectBoundException"}


def printed(name):
    """A class's name as a refusal prints it."""
    codes = b"".join(unit.to_bytes(2, "big") for unit in units(name))
    return codes.decode("utf-16-be", "surrogatepass").replace("/", ".")


def kept_names(reader):
    """Whether ajc$ stands in a name of a class or in a name or descriptor of a member."""
    names = [text for member in reader.members for text in member]
    for entry in reader.pool.values():
        if entry[0] == 7:
            names.append(reader.text(entry[1]))
        if entry[0] == 12:
            names += [reader.text(entry[1]), reader.text(entry[2])]
    return any(b"ajc$" in name for name in names)


def world_fault(reader):
    """What `weave` prints behind its name of a class that is alone beside the library, or None."""
    own, above = reader.name, reader.above
    final, interface = bool(reader.flags & 0x10), bool(reader.flags & 0x200)
    if own in FINAL | INTERFACES | OPEN:
        return "duplicate"
    if kept_names(reader):
        return "reserved"
    for name in [above, *reader.interfaces]:
        if name != own and name not in FINAL | INTERFACES | OPEN:
            return f"missing-super {printed(name)}"
    if above in FINAL | INTERFACES or above == own and (final or interface):
        return "final-super"
    if any(name not in INTERFACES and not (name == own and interface) for name in reader.interfaces):
        return "final-super"
    if own in [above, *reader.interfaces]:
        return "circle"
    return None
