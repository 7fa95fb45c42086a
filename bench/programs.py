"""Programs of cs_5_0 as words, and containers around them.

The words follow d3d11TokenizedProgramFormat.hpp: an opcode token with the instruction's length in bits 24 to 30, and operand tokens
with their indices. A container is a DXBC file with one chunk SHEX and a true checksum.
"""

import math
import struct

VERSION = 0x00050050  # cs_5_0

# Opcodes (D3D10_SB_OPCODE_TYPE).
OPCODES = {
    "and": 1, "break": 2, "breakc": 3, "case": 6, "continue": 7, "continuec": 8, "default": 10, "else": 18, "endif": 21, "endloop": 22,
    "endswitch": 23, "iadd": 30, "if": 31, "ieq": 32, "ige": 33, "ilt": 34, "imad": 35, "imax": 36, "imin": 37, "imul": 38, "ine": 39,
    "ineg": 40, "ishl": 41, "ishr": 42, "loop": 48, "mov": 54, "movc": 55, "nop": 58, "not": 59, "or": 60, "ret": 62, "retc": 63,
    "switch": 76, "udiv": 78, "ult": 79, "uge": 80, "umul": 81, "umad": 82, "umax": 83, "umin": 84, "ushr": 85, "xor": 87,
    "bufinfo": 121, "countbits": 134, "firstbit_hi": 135, "firstbit_lo": 136, "firstbit_shi": 137, "ubfe": 138, "ibfe": 139, "bfi": 140,
    "bfrev": 141, "swapc": 142, "ld_raw": 165, "store_raw": 166, "ld_structured": 167, "store_structured": 168, "atomic_and": 169,
    "atomic_or": 170, "atomic_xor": 171, "atomic_cmp_store": 172, "atomic_iadd": 173, "atomic_imax": 174, "atomic_imin": 175,
    "atomic_umax": 176, "atomic_umin": 177, "imm_atomic_alloc": 178, "imm_atomic_consume": 179, "imm_atomic_iadd": 180,
    "imm_atomic_and": 181, "imm_atomic_or": 182, "imm_atomic_xor": 183, "imm_atomic_exch": 184, "imm_atomic_cmp_exch": 185,
    "sync": 190,
}

COMPONENTS = "xyzw"


def mask(text):
    return sum(1 << COMPONENTS.index(c) for c in text)


def swizzle(text):
    text = (text + text[-1] * 4)[:4]
    return sum(COMPONENTS.index(c) << 2 * i for i, c in enumerate(text))


# Operands. Types (D3D10_SB_OPERAND_TYPE): 0 temp, 3 indexable temp, 4 immediate, 7 resource, 8 constant buffer, 9 immediate constant
# buffer, 30 uav, 31 shared memory, 32 thread id, 33 group id, 34 id in group, 36 flat id.
TYPES = {"r": 0, "x": 3, "t": 7, "cb": 8, "icb": 9, "u": 30, "g": 31, "vThreadID": 32, "vThreadGroupID": 33, "vThreadIDInGroup": 34, "vThreadIDInGroupFlattened": 36}


def to(name, *indices, on="xyzw"):
    """A destination with a mask; one without an index where none is given."""
    return [0x2 | mask(on) << 4 | TYPES[name] << 12 | len(indices) << 20] + list(indices)


def of(name, *indices, at="xyzw"):
    """A source: a component, or a swizzle of several."""
    select = 0xA | COMPONENTS.index(at) << 4 if len(at) == 1 else 0x6 | swizzle(at) << 4
    return [select | TYPES[name] << 12 | len(indices) << 20] + list(indices)


def at_register(name, slot, register, component, at="xyzw", plus=None):
    """A source x# or cb# at the word of a register, with a number added to it where one is given."""
    select = 0xA | COMPONENTS.index(at) << 4 if len(at) == 1 else 0x6 | swizzle(at) << 4
    form = 2 if plus is None else 3
    number = [] if plus is None else [plus]
    return [select | TYPES[name] << 12 | 2 << 20 | form << 25, slot] + number + [0xA | COMPONENTS.index(component) << 4 | 1 << 20, register]


def to_register(name, slot, register, component, on="xyzw"):
    """A destination x# at the word of a register."""
    return [0x2 | mask(on) << 4 | TYPES[name] << 12 | 2 << 20 | 2 << 25, slot, 0xA | COMPONENTS.index(component) << 4 | 1 << 20, register]


def view(name, slot):
    """A view by its name alone, as atomics take it."""
    return [TYPES[name] << 12 | 1 << 20, slot]


def l(*words):
    words = [w & 0xFFFFFFFF for w in words]
    return [0x4001] + words if len(words) == 1 else [0x4002] + (words + [0, 0, 0])[:4]


NULL = [0xD000]


def do(name, *operands, controls=0):
    """An instruction with its operands."""
    words = [w for operand in operands for w in operand]
    return [OPCODES[name] | controls << 11 | (len(words) + 1) << 24] + words


def test(name, *operands):
    """A conditional instruction whose condition is that the word is not 0."""
    return do(name, *operands, controls=0x80)


def sync(groups=False, memory=False, threads=False, views=False):
    """sync with its flags: _uglobal or _ugroup for views, _g for shared memory, _t for threads."""
    return do("sync", controls=(1 if threads else 0) | (2 if memory else 0) | (4 if groups else 0) | (8 if views else 0))


# Declarations.
def temps(count):
    return [0x02000068, count]


def indexable(slot, elements):
    return [0x04000069, slot, elements, 4]


def group(x, y=1, z=1):
    return [0x0400009B, x, y, z]


def thread_id(on="x"):
    return [0x0200005F, 0x20002 | mask(on) << 4]


def group_id(on="x"):
    return [0x0200005F, 0x21002 | mask(on) << 4]


def id_in_group(on="x"):
    return [0x0200005F, 0x22002 | mask(on) << 4]


def flat_id():
    return [0x0200005F, 0x00024000]


def uav_raw(slot):
    return [0x0300009D, 0x0011E000, slot]


def uav_structured(slot, stride, counter=False):
    return [0x0400009E | (0x00800000 if counter else 0), 0x0011E000, slot, stride]


def resource_raw(slot):
    return [0x030000A1, 0x00107000, slot]


def resource_structured(slot, stride):
    return [0x040000A2, 0x00107000, slot, stride]


def shared_raw(slot, size):
    return [0x0400009F, 0x0011F000, slot, size]


def shared_structured(slot, stride, count):
    return [0x050000A0, 0x0011F000, slot, stride, count]


def constant_buffer(slot, vectors):
    return [0x04000059, 0x00208E46, slot, vectors]


def program(*parts):
    """The words of a program: version, length, and all parts one after the other."""
    body = [w for part in parts for w in part]
    return [VERSION, len(body) + 2] + body


# Containers.
SINES = [int(abs(math.sin(i + 1)) * 2**32) & 0xFFFFFFFF for i in range(64)]
SHIFTS = [7, 12, 17, 22] * 4 + [5, 9, 14, 20] * 4 + [4, 11, 16, 23] * 4 + [6, 10, 15, 21] * 4


def rotate(x, n):
    return ((x << n) | (x >> (32 - n))) & 0xFFFFFFFF


def transform(state, block):
    """One block of MD5 (RFC 1321)."""
    words = struct.unpack("<16I", block)
    a, b, c, d = state
    for i in range(64):
        if i < 16:
            f, k = (b & c) | (~b & d), i
        elif i < 32:
            f, k = (d & b) | (~d & c), (5 * i + 1) % 16
        elif i < 48:
            f, k = b ^ c ^ d, (3 * i + 5) % 16
        else:
            f, k = c ^ (b | (~d & 0xFFFFFFFF)), 7 * i % 16
        f = (f + a + SINES[i] + words[k]) & 0xFFFFFFFF
        a, d, c, b = d, c, b, (b + rotate(f, SHIFTS[i])) & 0xFFFFFFFF
    return [(x + y) & 0xFFFFFFFF for x, y in zip(state, (a, b, c, d))]


def checksum(content):
    """The checksum of a container, over all behind it: MD5, with the counts of bits at both ends of the last block."""
    state = [0x67452301, 0xEFCDAB89, 0x98BADCFE, 0x10325476]
    whole = len(content) // 64 * 64
    for at in range(0, whole, 64):
        state = transform(state, content[at : at + 64])
    rest = content[whole:]
    bits = struct.pack("<I", len(content) * 8 & 0xFFFFFFFF)
    end = struct.pack("<I", (len(content) * 2 | 1) & 0xFFFFFFFF)
    if len(rest) >= 56:
        state = transform(state, rest + b"\x80" + bytes(63 - len(rest)))
        last = bits + bytes(56) + end
    else:
        last = bits + rest + b"\x80" + bytes(55 - len(rest)) + end
    return struct.pack("<4I", *transform(state, last))


def container(words):
    """A container with one chunk SHEX of these words."""
    data = struct.pack("<%dI" % len(words), *words)
    body = struct.pack("<4I", 1, 44 + len(data), 1, 36) + b"SHEX" + struct.pack("<I", len(data)) + data
    return b"DXBC" + checksum(body) + body
