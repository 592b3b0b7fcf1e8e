"""What a program for amd64 needs at run time."""
import re
import struct

# Shared libraries of C, and Debian's packages of them.
PACKAGES = {b'libc.so.6': 'libc6', b'libm.so.6': 'libc6', b'ld-linux-x86-64.so.2': 'libc6', b'libgcc_s.so.1': 'libgcc-s1'}


class Wrong(Exception):
    """What the reader of the command line gets to see."""


def is_program(data):
    """Whether these bytes are a 64-bit ELF file for x86-64."""
    return data[:6] == b'\x7fELF\x02\x01' and data[18:20] == b'\x3e\x00'


def segments_of(data, kind):
    """The bytes of each segment of a kind."""
    place, size, count = struct.unpack_from('<Q', data, 32)[0], *struct.unpack_from('<HH', data, 54)
    for number in range(count):
        found, _, offset, _, _, length = struct.unpack_from('<IIQQQQ', data, place + number * size)
        if found == kind:
            yield data[offset:offset + length]


def needs(data):
    """The packages that a program needs: none where it stands alone, else those of its shared libraries."""
    if not any(True for _ in segments_of(data, 3)):
        return []
    libraries = set(re.findall(rb'\0(ld-linux-x86-64\.so\.2|lib[a-z_]+\.so\.[0-9]+)(?=\0)', data))
    unknown = libraries - set(PACKAGES)
    if unknown:
        raise Wrong('the program needs %s, of which no package is known here' % b', '.join(sorted(unknown)).decode())
    oldest = max((int(minor) for minor in re.findall(rb'\0GLIBC_2\.([0-9]+)(?:\.[0-9]+)?(?=\0)', data)), default=0)
    return sorted({PACKAGES[name] for name in libraries} - {'libc6'}) + ['libc6 (>= 2.%d)' % oldest]
