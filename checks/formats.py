"""Bytes of core modules and components, as docs/FORMATS.md has them."""

MODULE = bytes.fromhex("0061736d01000000")
COMPONENT = bytes.fromhex("0061736d0d000100")

# The characters of short names: printable, and none that ends a name in a script.
LETTERS = "abcdefghijklmnopqrstuvwxyzABCDEFGHIJKLMNOPQRSTUVWXYZ0123456789"


def u32(number):
    """A number as LEB128."""
    found = bytearray()
    while number >= 128:
        found.append(number % 128 + 128)
        number //= 128
    found.append(number)
    return bytes(found)


def name(text):
    """A length, and so many bytes of UTF-8."""
    return u32(len(text.encode())) + text.encode()


def vec(items):
    """How many items, and the items."""
    items = list(items)
    return u32(len(items)) + b"".join(items)


def section(number, payload):
    """A section: its id, its size and its payload."""
    return bytes([number]) + u32(len(payload)) + payload


def short_name(number, letters):
    """The name of so many letters that has this number."""
    found = ""
    for _ in range(letters):
        found += LETTERS[number % len(LETTERS)]
        number //= len(LETTERS)
    return found


def short_names(count, letters):
    """So many names of so many letters, all distinct."""
    assert count <= len(LETTERS) ** letters
    return [short_name(number, letters) for number in range(count)]


def taking(params):
    """The type of a core function from so many numbers to nothing."""
    return b"\x60" + vec([b"\x7f"] * params) + b"\x00"


def module(names, params=0):
    """A core module with one function, from so many numbers to nothing, which it exports under these names."""
    return (
        MODULE
        + section(1, vec([taking(params)]))
        + section(3, vec([u32(0)]))
        + section(7, vec(name(text) + b"\x00" + u32(0) for text in names))
        + section(10, vec([b"\x02\x00\x0b"]))
    )


def importing(names, params=0):
    """A core module that imports a function under each of these names, from so many numbers to nothing."""
    return (
        MODULE
        + section(1, vec([taking(params)]))
        + section(2, vec(name("m") + name(text) + b"\x00" + u32(0) for text in names))
    )


def instances(count, module=0, arguments=(), given=0):
    """So many instances of a core module, with the core instance of an index as each of the arguments."""
    return section(2, vec([b"\x00" + u32(module) + vec(name(text) + b"\x12" + u32(given) for text in arguments)] * count))


def instance(module=0, arguments=()):
    """An instance of a core module, with core instance 0 as each of the arguments."""
    return instances(1, module, arguments)


def inline_instance(names):
    """A core instance that exports core function 0 under these names."""
    return section(2, vec([b"\x01" + vec(name(text) + b"\x00" + u32(0) for text in names)]))


def inline_funcs(names, first):
    """A core instance that exports core functions under these names, the first of them that of this index."""
    return section(2, vec([b"\x01" + vec(name(text) + b"\x00" + u32(first + index) for index, text in enumerate(names))]))


def aliases(names):
    """The core functions that core instance 0 exports under these names."""
    return section(6, vec(b"\x00\x00\x01" + u32(0) + name(text) for text in names))


def func_type(labels):
    """A function type from numbers under these labels to nothing."""
    params = vec(name(label) + b"\x79" for label in labels)
    return section(7, vec([b"\x40" + params + b"\x01\x00"]))


def lifts(func_types, core_func=0, options=()):
    """Lifts of a core function to the types of these indices, each with these options."""
    return section(8, vec(b"\x00\x00" + u32(core_func) + vec(options) + u32(index) for index in func_types))


def lift():
    """The lift of core function 0 to type 0."""
    return lifts([0])


def lowers(count, func=0, options=()):
    """The function of an index lowered so many times, each time with these options."""
    return section(8, vec([b"\x01\x00" + u32(func) + vec(options)] * count))


def wide():
    """A function of 16 numbers of 64 bits to another, which are all that is passed without a memory, lifted as function 0."""
    module = (
        MODULE
        + section(1, vec([b"\x60" + vec([b"\x7e"] * 16) + vec([b"\x7e"])]))
        + section(3, vec([u32(0)]))
        + section(7, vec([name("f") + b"\x00\x00"]))
        + section(10, vec([b"\x04\x00\x42\x00\x0b"]))
    )
    func_type = b"\x40" + vec(name(text) + b"\x77" for text in LETTERS[:16]) + b"\x00\x77"
    return section(1, module) + instance() + aliases(["f"]) + types([func_type]) + lift()


def placing_module():
    """A core module with a memory `m`, a function `f` of an i32, and a function `r` that gives places in the memory."""
    return (
        MODULE
        + section(1, vec([b"\x60\x01\x7f\x00", b"\x60\x04\x7f\x7f\x7f\x7f\x01\x7f"]))
        + section(3, vec([u32(0), u32(1)]))
        + section(5, vec([b"\x00\x01"]))
        + section(7, vec([name("f") + b"\x00\x00", name("r") + b"\x00\x01", name("m") + b"\x02\x00"]))
        + section(10, vec([b"\x02\x00\x0b", b"\x04\x00\x41\x08\x0b"]))
    )


def placing():
    """An instance of that module, its `f` and `r` as core functions 0 and 1, and its `m` as core memory 0."""
    aliased = [b"\x00\x00\x01" + u32(0) + name("f"), b"\x00\x00\x01" + u32(0) + name("r"), b"\x00\x02\x01" + u32(0) + name("m")]
    return section(1, placing_module()) + instance() + section(6, vec(aliased))


def record(labels, val_type=b"\x79"):
    """A record type with a field of this type under each label."""
    return b"\x72" + vec(name(label) + val_type for label in labels)


def tuple_of(val_types):
    """A tuple type of these types."""
    return b"\x6f" + vec(val_types)


def exports(names):
    """Exports of function 0 under these names."""
    return section(11, vec(b"\x00" + name(text) + b"\x01" + u32(0) + b"\x00" for text in names))


def ext(text):
    """The name of an import or an export."""
    return b"\x00" + name(text)


def types(items):
    """Types of a component."""
    return section(7, vec(items))


def instance_type(decls):
    """A type of instances, of these declarations."""
    return b"\x42" + vec(decls)


def type_exports(names, index=0):
    """Exports of an instance type, each of which is the type of this index."""
    return [b"\x04" + ext(text) + b"\x03\x00" + u32(index) for text in names]


def inline_types(names):
    """An instance that exports type 0 under these names."""
    return section(5, vec([b"\x01" + vec(ext(text) + b"\x03" + u32(0) for text in names)]))


def instance_exports(names, index=0, described=None):
    """Exports of the instance of an index under these names, as ones of the type of an index if that is described."""
    described = b"\x00" if described is None else b"\x01\x05" + u32(described)
    return section(11, vec(ext(text) + b"\x05" + u32(index) + described for text in names))


def instance_imports(names, index):
    """Imports of instances of the type of this index under these names."""
    return section(10, vec(ext(text) + b"\x05" + u32(index) for text in names))


def nested(*parts):
    """A component in a component."""
    return section(4, component(*parts))


def instantiated(index=0, arguments=()):
    """An instance of a component, with type 0 as each of the arguments."""
    return section(5, vec([b"\x00" + u32(index) + vec(name(text) + b"\x03" + u32(0) for text in arguments)]))


def type_imports(names):
    """Imports of type 0 under these names."""
    return section(10, vec(ext(text) + b"\x03\x00" + u32(0) for text in names))


def type_aliases(names):
    """The types that instance 0 exports under these names."""
    return section(6, vec(b"\x03\x00" + u32(0) + name(text) for text in names))


def component(*parts):
    """A component of these sections."""
    return COMPONENT + b"".join(parts)
