"""What an ELF file for x86-64 asks of the machine that it runs on: libraries, their versions, and
the processor's level."""
import re
import shutil
import struct
import subprocess

# Kinds of sections, and tags of the dynamic section, by the ELF standard and the GNU one.
SYMBOLS, DYNAMIC, DYNAMIC_SYMBOLS, VERSIONS_NEEDED = 2, 6, 11, 0x6FFFFFFE
NEEDED, SONAME, RPATH, RUNPATH = 1, 14, 15, 29
X86_64 = 62
# Instructions by which the levels of the x86-64 psABI are known from those below them. Of level 2
# are SSE3, SSSE3, SSE4.1 and SSE4.2, POPCNT and CMPXCHG16B; of level 3 AVX, BMI, FMA, LZCNT and
# MOVBE. TZCNT isn't among them: an older processor takes it for BSF.
LEVEL_2 = r"popcnt|cmpxchg16b|crc32[bwlq]?|lddqu|movddup|movs[hl]dup|h?addsubp[sd]|haddp[sd]"
LEVEL_2 += r"|pshufb|palignr|pabs[bwd]|psign[bwd]|ph(add|sub)(s?w|d)|pmaddubsw|pmulhrsw|ptest"
LEVEL_2 += r"|pcmp(eq|gt)q|p(ins|ext)r[bdq]|insertps|extractps|pblend(w|vb)|blendv?p[sd]|dpp[sd]"
LEVEL_2 += r"|round[ps][sd]|pmov[sz]x(bw|bd|bq|wd|wq|dq)|pmuldq|pmulld|p(min|max)(sb|uw|sd|ud)"
LEVEL_2 += r"|packusdw|mpsadbw|phminposuw|movntdqa|pcmp[ei]str[im]"
LEVEL_3 = r"v(?!erw|err|mcall|mlaunch|mresume)[a-z]\w*|andn|bextr|bls(i|r|msk)|bzhi|mulx|pdep|pext"
LEVEL_3 += r"|rorx|s(ar|hl|hr)x|lzcnt|movbe[wlq]?"


class Elf:
    """The dynamic part of a program or a shared library."""

    def __init__(self, data):
        if data[:6] != b"\x7fELF\x02\x01" or struct.unpack_from("<H", data, 18)[0] != X86_64:
            raise ValueError("this is no ELF file for x86-64")
        self.data = data
        self.read_sections()
        self.needed, self.soname, self.paths = [], None, []
        for tag, value in self.dynamic():
            if tag == NEEDED:
                self.needed.append(self.text(self.strings, value))
            elif tag == SONAME:
                self.soname = self.text(self.strings, value)
            elif tag in (RPATH, RUNPATH):
                self.paths.append(self.text(self.strings, value))
        loader = self.sections.get(".interp")
        self.loader = self.text(loader[4], 0) if loader else None
        self.is_stripped = SYMBOLS not in self.kinds

    def read_sections(self):
        """The heads of its sections, by their names and by their kinds, and its strings."""
        at, = struct.unpack_from("<Q", self.data, 40)
        size, count, names = struct.unpack_from("<HHH", self.data, 58)
        head = lambda number: struct.unpack_from("<IIQQQQIIQQ", self.data, at + size * number)
        heads = [head(number) for number in range(count)]
        self.sections = {self.text(heads[names][4], it[0]): it for it in heads}
        self.kinds = {it[1]: it for it in heads}
        symbols = self.kinds.get(DYNAMIC_SYMBOLS)
        self.strings = heads[symbols[6]][4] if symbols else 0

    def text(self, base, offset):
        start = base + offset
        return self.data[start : self.data.index(b"\0", start)].decode()

    def dynamic(self):
        if DYNAMIC in self.kinds:
            _, _, _, _, at, size, *_ = self.kinds[DYNAMIC]
            for place in range(at, at + size, 16):
                yield struct.unpack_from("<qQ", self.data, place)

    def versions(self):
        """The versions of symbols that it asks of libraries."""
        if VERSIONS_NEEDED not in self.kinds:
            return
        at, following = self.kinds[VERSIONS_NEEDED][4], 1
        while following:
            _, count, _, first, following = struct.unpack_from("<HHIII", self.data, at)
            one = at + first
            for _ in range(count):
                _, _, _, name, after = struct.unpack_from("<IHHII", self.data, one)
                yield self.text(self.strings, name)
                one += after
            at += following

    def newest(self, family):
        """The newest version of a family, as GLIBC; none where it asks for none."""
        told = (re.fullmatch(family + r"_([\d.]+)", it) for it in self.versions())
        return max((numbers(it[1]) for it in told if it), default=None)


def processor(file):
    """The level of x86-64 whose instructions a program or a library has, by objdump; none where
    that isn't on this machine. What the code asks before it takes them isn't looked at."""
    objdump = shutil.which("objdump")
    if not objdump:
        return None
    words = [objdump, "--disassemble", "--no-show-raw-insn", file]
    said = subprocess.run(words, capture_output=True, text=True, check=True).stdout
    found = set(re.findall(r"(?m)^ *[0-9a-f]+:\t(?:(?:rep|repz|lock|data16|cs) )*(\w+)", said))
    if "%zmm" in said or re.search(r"%k[0-7]\b", said):
        return "x86-64-v4"
    for level, instructions in ((3, LEVEL_3), (2, LEVEL_2)):
        if any(re.fullmatch(instructions, it) for it in found):
            return f"x86-64-v{level}"
    return "x86-64"


def numbers(text):
    return tuple(int(it) for it in text.split("."))


def dotted(version):
    return ".".join(map(str, version))
