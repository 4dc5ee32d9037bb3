"""What a place is in the program: a variable with its members by the debug information, which binutils' readelf prints,
or memory of the heap with the line that asked for it."""

import bisect
import re
import subprocess

_ENTRY = re.compile(r" <(\d+)><(\w+)>: Abbrev Number: \d+ \(DW_TAG_(\w+)\)")
_FIELD = re.compile(r"\s+<\w+>\s+DW_AT_(\w+)\s*:\s*(.*?)\s*$")


def _printed(*command):
    try:
        return subprocess.run(command, capture_output=True, text=True).stdout
    except OSError:
        return ""


def _entries(program):
    """Of each entry its tag, its fields and its members, by its offset."""
    entries, parents = {}, {}
    for line in _printed("readelf", "--debug-dump=info", program).splitlines():
        head, field = _ENTRY.match(line), _FIELD.match(line)
        if head:
            depth = int(head[1])
            entry = entries[int(head[2], 16)] = {"tag": head[3], "members": []}
            parents[depth] = entry
            if depth:
                parents[depth - 1]["members"].append(entry)
        elif field and entries:
            entry[field[1]] = field[2].rsplit(": ", 1)[-1] if field[1] == "name" else field[2]
    return entries


def _number(entry, field, otherwise=None):
    text = entry.get(field, "").split()
    return int(text[0], 0) if text and text[0].isalnum() else otherwise


class Names:
    def __init__(self, program, recording):
        self.program, self.recording = program, recording
        self.entries = _entries(program)
        self.variables = sorted(self._variables(), key=lambda found: found[0])
        self.blocks = [block.address for block in recording.blocks]

    def of(self, place):
        """The words for a place of the recording."""
        address = self.recording.words[place // 8].address + place % 8
        return self._heap(address) or self._variable(address - self.recording.base) or f"address {address:#x}"

    def block(self, address):
        """The block of the heap with this address, or None."""
        i = bisect.bisect_right(self.blocks, address) - 1
        if i < 0 or address >= self.blocks[i] + self.recording.blocks[i].size:
            return None
        return self.recording.blocks[i]

    def _heap(self, address):
        block = self.block(address)
        if not block:
            return None
        line = _printed("addr2line", "-s", "-e", self.program, hex(block.caller - 1 - self.recording.base)).strip()
        asked = "" if not line or "?" in line else f", which {line} asked for"
        return f"byte {address - block.address} of {block.size} bytes at {block.address:#x}{asked}"

    def _variables(self):
        for entry in self.entries.values():
            found = re.search(r"DW_OP_addr: (\w+)", entry.get("location", ""))
            if entry["tag"] == "variable" and found:
                declared = self._at(entry, "specification") or entry
                name = entry.get("name") or declared.get("name")
                yield int(found[1], 16), name, self._type(entry) or self._type(declared)

    def _variable(self, address):
        i = bisect.bisect_right(self.variables, address, key=lambda found: found[0]) - 1
        if i < 0:
            return None
        start, name, type_ = self.variables[i]
        if address - start >= self._size(type_):
            return None
        return name + self._member(type_, address - start)

    def _at(self, entry, field):
        found = re.search(r"<0x(\w+)>", entry.get(field, ""))
        return self.entries.get(int(found[1], 16)) if found else None

    def _type(self, entry):
        """The type of an entry, past other names of it."""
        type_ = self._at(entry, "type")
        while type_ and type_["tag"] in ("typedef", "const_type", "volatile_type", "atomic_type"):
            type_ = self._at(type_, "type")
        return type_

    def _lengths(self, array):
        """How many elements an array has in each direction."""
        ranges = [entry for entry in array["members"] if entry["tag"] == "subrange_type"]
        return [_number(entry, "count") or _number(entry, "upper_bound", -1) + 1 for entry in ranges]

    def _size(self, type_):
        if type_ is None:
            return 0
        if type_["tag"] == "array_type" and "byte_size" not in type_:
            size = self._size(self._type(type_))
            for length in self._lengths(type_):
                size *= length
            return size
        return _number(type_, "byte_size", 0)

    def _member(self, type_, offset):
        """What follows a variable's name for the byte at this offset of it."""
        if type_["tag"] == "array_type" and "GNU_vector" not in type_:
            return self._element(type_, offset)
        if type_["tag"] in ("structure_type", "class_type", "union_type"):
            # of a base without members, which lies over another one, there is nothing to tell
            for entry in sorted(type_["members"], key=lambda entry: entry["tag"] == "inheritance"):
                start, inner = _number(entry, "data_member_location", 0), self._type(entry)
                own = entry["tag"] in ("member", "inheritance") and "external" not in entry
                if own and start <= offset < start + self._size(inner):
                    name = f".{entry['name']}" if "name" in entry else ""
                    return name + self._member(inner, offset - start)
        return f" (byte {offset})" if offset else ""

    def _element(self, array, offset):
        inner = self._type(array)
        size = self._size(inner)
        if not size:
            return ""
        index, rest = divmod(offset, size)
        indices = []
        for length in reversed(self._lengths(array)[1:]):
            index, last = divmod(index, length)
            indices.insert(0, last)
        return "".join(f"[{i}]" for i in [index, *indices]) + self._member(inner, rest)
