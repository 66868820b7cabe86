"""Makes class files of Java 1.4 whose methods take nothing, print lines and call one another."""
import struct


class Pool:
    """A constant pool whose entries are made in order of first use."""

    def __init__(self):
        self.entries = []
        self.places = {}

    def add(self, bytes_):
        if bytes_ not in self.places:
            self.entries.append(bytes_)
            self.places[bytes_] = len(self.entries)
        return self.places[bytes_]

    def utf8(self, text):
        return self.add(struct.pack(">BH", 1, len(text)) + text.encode())

    def class_(self, name):
        return self.add(struct.pack(">BH", 7, self.utf8(name)))

    def string(self, text):
        return self.add(struct.pack(">BH", 8, self.utf8(text)))

    def member(self, tag, class_, name, descriptor):
        type_ = self.add(struct.pack(">BHH", 12, self.utf8(name), self.utf8(descriptor)))
        return self.add(struct.pack(">BHH", tag, self.class_(class_), type_))


def say(pool, text):
    out = pool.member(9, "java/lang/System", "out", "Ljava/io/PrintStream;")
    println = pool.member(10, "java/io/PrintStream", "println", "(Ljava/lang/String;)V")
    return struct.pack(">BHBBBH", 178, out, 18, pool.string(text), 182, println)


def call(pool, class_, name):
    return struct.pack(">BH", 184, pool.member(10, class_, name, "()V"))


def method(pool, name, code):
    content = struct.pack(">HHI", 2, 0, len(code)) + code + struct.pack(">HH", 0, 0)
    return (struct.pack(">HHHH", 9, pool.utf8(name), pool.utf8("()V"), 1)
            + struct.pack(">HI", pool.utf8("Code"), len(content)) + content)


def class_file(name, methods):
    pool = Pool()
    this, super_ = pool.class_(name), pool.class_("java/lang/Object")
    bodies = [method(pool, m, b"".join(part(pool) for part in parts) + b"\xb1") for m, parts in methods]
    return (struct.pack(">IHHH", 0xCAFEBABE, 0, 48, len(pool.entries) + 1) + b"".join(pool.entries)
            + struct.pack(">HHHHHH", 0x21, this, super_, 0, 0, len(bodies)) + b"".join(bodies)
            + struct.pack(">H", 0))
