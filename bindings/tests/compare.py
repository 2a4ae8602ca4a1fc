"""Compares the header, the exports of the library's source and the Python package: names and types of calls, their
arguments and the fields of structs, statuses, sizes of structs and texts. Its last line is 'N passed, M failed'."""

import ctypes
import glob
import os
import re
import sys
from typing import Dict, List, Optional, Tuple

ROOT = os.path.dirname(os.path.dirname(os.path.dirname(os.path.abspath(__file__))))
sys.path.insert(0, os.path.join(ROOT, "bindings", "python"))

from wurstlinen import _agent, _faults, _library, _types, _wire, entries  # noqa: E402

passed = failed = 0


def check(holds: bool, what: str) -> None:
    global passed, failed
    passed, failed = passed + bool(holds), failed + (not holds)
    if not holds:
        print(f"compare: {what}")


def read(*path: str) -> str:
    with open(os.path.join(ROOT, *path), encoding="utf-8") as file:
        return file.read()


# A call's arguments or a struct's fields: their names and C types, without const. A Python argument has no name.
Parts = List[Tuple[Optional[str], str]]

NUMBERS = {"u8": "uint8_t", "u16": "uint16_t", "u32": "uint32_t", "u64": "uint64_t", "usize": "size_t", "bool": "bool"}
# The C type of a handle depends on the call. Its form in the source and in the package is the same for all.
HANDLE = "handle *"
# Other names for the bytes of parameter data, in the source and in the header.
SAME_NAMES = {"param_bytes": "param", "buffer": "param"}


def snake(name: str) -> str:
    """MuteAck as mute_ack."""
    return re.sub(r"(?<!^)(?=[A-Z])", "_", name).lower()


def c_type(rust: str) -> str:
    """The C type of a Rust type that is passed to C."""
    pointer = re.fullmatch(r"&(mut )?(.*)", rust)
    if pointer is not None:
        return ("" if pointer[1] else "const ") + c_type(pointer[2]) + " *"
    return NUMBERS.get(rust) or {"Handle": "handle"}.get(rust) or "struct wurst_" + snake(rust[:-len("ForC")])


def passed_to_c(name: str, rust: str) -> Parts:
    """A Rust argument as C passes it: a slice is two arguments, and the allocator is none."""
    name = SAME_NAMES.get(name, name)
    if rust == "Global":
        return []
    a_slice = re.fullmatch(r"&(mut )?\[(\w+)\]", rust)
    if a_slice is None:
        return [(name, c_type(rust))]
    return [(name, c_type(f"&{a_slice[1] or ''}{a_slice[2]}")), ("room" if a_slice[1] else "len", "size_t")]


def exports() -> Dict[str, Parts]:
    """Each export of the source."""
    found = {}
    for path in sorted(glob.glob(os.path.join(ROOT, "crates", "rdm_c", "src", "*.rt"))):
        for name, arguments in re.findall(r'pub extern "C" fn (\w+)\(([^)]*)\)', read(path)):
            pairs = [[word.strip() for word in one.split(":", 1)] for one in arguments.split(",") if ":" in one]
            found[name] = [part for pair in pairs for part in passed_to_c(*pair)]
    return found


def source_structs() -> Dict[str, Parts]:
    """The structs of the source."""
    found = {}
    text = read("crates", "rdm_handles", "src", "forms.rt")
    for name, body in re.findall(r"pub struct (\w+)ForC \{(.*?)\n\}", text, re.S):
        fields = re.findall(r"pub (\w+): (\w+),", body)
        found["wurst_" + snake(name)] = [(field, c_type(rust)) for field, rust in fields]
    return found


def without_comments(header: str) -> str:
    return re.sub(r"/\*.*?\*/", "", header, flags=re.S)


def part_of(text: str) -> Tuple[str, str]:
    """The name and the type in the text of an argument or a field."""
    match = re.fullmatch(r"(.*?)(\w+)", " ".join(text.split()))
    assert match is not None, text
    return match[2], match[1].strip()


def declared(header: str) -> Dict[str, Parts]:
    """Each call of the header. The length of a slice may also be called by the name of the slice."""
    found = {}
    for name, arguments in re.findall(r"^(?:uint32_t|void) (wurst_\w+)\(([^)]*)\);", without_comments(header), re.M):
        parts = [] if arguments == "void" else [part_of(one) for one in arguments.split(",")]
        found[name] = [("len" if part == f"{before}_len" else SAME_NAMES.get(part, part), handle_of(name, part, kind))
                       for (before, _), (part, kind) in zip([("", ""), *parts], parts)]
    return found


def handle_of(call: str, name: str, kind: str) -> str:
    """The type of an argument; that of a handle only if the call is one on that kind of handles."""
    own = "log" if name == "log" else call.split("_")[1]
    return HANDLE if name in ("handle", "log") and kind == f"struct wurst_{own} *" else kind


def header_structs(header: str) -> Dict[str, Parts]:
    """The structs of the header."""
    found = {}
    for name, body in re.findall(r"struct (wurst_\w+) \{(.*?)\};", without_comments(header), re.S):
        found[name] = [part_of(one) for one in body.split(";") if one.strip()]
    return found


FORMS = {"setup": _library.Setup, "request": _library.RequestForm, "completion": _library.CompletionForm,
         "end": _library.EndForm, "device": _library.DeviceForm, "response": _library.ResponseForm,
         "command": _library.CommandForm, "mute_ack": _library.MuteAckForm, "start": _library.StartForm,
         "entry": _library.EntryForm}
CTYPES = {"uint8_t": ctypes.c_uint8, "uint16_t": ctypes.c_uint16, "uint32_t": ctypes.c_uint32,
          "uint64_t": ctypes.c_uint64, "size_t": ctypes.c_size_t, "bool": ctypes.c_bool, "handle": _library.Handle,
          **{f"struct wurst_{name}": form for name, form in FORMS.items()}}


def of_package(kind: str) -> type:
    """The package's type for a C type. It has no const."""
    kind = kind.replace("const ", "")
    return ctypes.POINTER(CTYPES[kind[:-2]]) if kind.endswith(" *") else CTYPES[kind]


def differences(header: str) -> List[str]:
    """How the header and the package differ from the source."""
    found = []
    of_source, of_header = exports(), declared(header)
    for name in sorted(set(of_source) | set(of_header) | set(_library.CALLS)):
        call = of_source.get(name)
        if call is None or of_header.get(name) != call:
            found.append(f"{name}: source {call}, header {of_header.get(name)}")
        elif _library.CALLS.get(name) != [of_package(kind) for _, kind in call]:
            found.append(f"{name}: source {call}, package {_library.CALLS.get(name)}")
    in_header = {name: fields for name, fields in header_structs(header).items() if "at" not in dict(fields)}
    for name, fields in source_structs().items():
        if in_header.pop(name, None) != fields:
            found.append(f"{name}: source {fields}, header {header_structs(header).get(name)}")
        form = FORMS[name[len("wurst_"):]]
        if form._fields_ != [(field, of_package(kind)) for field, kind in fields]:
            found.append(f"{name}: source {fields}, package {form._fields_}")
    return found + [f"{name}: not in the source" for name in in_header]


def swapped(header: str, first: str, second: str) -> str:
    """The header with two texts in each other's place, where they follow each other."""
    assert re.search(first + r"\s*" + second, header), f"{first} {second}"
    return re.sub(f"({first})(\\s*)({second})", r"\3\2\1", header)


def statuses(header: str) -> dict:
    body = re.search(r"enum wurst_status \{(.*?)\};", header, re.S).group(1)
    return {name: int(value) for name, value in re.findall(r"WURST_(\w+) = (\d+)", body)}


def enum_of(header: str, name: str) -> list:
    body = re.search(r"enum %s \{(.*?)\};" % name, header, re.S).group(1)
    return [int(value) for value in re.findall(r"= (\d+)", body)]


def main() -> int:
    header = read("bindings", "c", "wurstlinen.h")
    check(differences(header) == [], "\n".join(differences(header)))
    # Arguments and fields of one type that stand in each other's place are noticed.
    for first, second in (("uint64_t lo,", "uint64_t hi,"), ("uint64_t uid,", "uint64_t source,"),
                          ("uint32_t ack;.*?", "uint32_t response_class;")):
        check(differences(swapped(header, first, second)) != [], f"{first} and {second} aren't told apart")
    source = {name: int(value) for name, value in
              re.findall(r"pub const (\w+): u32 = (\d+);", read("crates", "rdm_handles", "src", "status.rt"))}
    check(source == statuses(header), "the statuses of the source aren't those of the header")
    texts = re.search(r"texts\[\] = \{(.*?)\};", header, re.S).group(1)
    texts = re.findall(r'"(?:[^"\\]|\\.)*"|NULL', texts)
    named = {number for number, text in enumerate(texts) if text != "NULL"}
    check(named == set(source.values()), "not each status has a text")
    for code, fault in _faults._FAULTS.items():
        name = re.sub(r"(?<!^)(?=[A-Z])", "_", fault.__name__).upper()
        check(source.get(name) == code, f"{fault.__name__} isn't the status {code}")
    check(len(_faults._FAULTS) == len(source) - 2, "not each status has a fault in Python")
    forms = dict(re.findall(r"size_of::<(\w+)ForC>\(\) == (\d+)", read("crates", "rdm_handles", "src", "forms.rt")))
    for name, form in FORMS.items():
        size = {snake(each): int(number) for each, number in forms.items()}.get(name)
        check(ctypes.sizeof(form) == size, f"the size of {name}")
    check(ctypes.sizeof(_library.Handle) == 16, "the size of a handle")
    for name, kind in [("wurst_request_status", _types.Status), ("wurst_ack", _types.AckType),
                       ("wurst_search", _types.Search), ("wurst_kind", _types.Kind),
                       ("wurst_command_class", _types.RequestClass), ("wurst_response_class", _types.ResponseClass),
                       ("wurst_outcome", _types.OutcomeKind), ("wurst_operation", _agent.Operation),
                       ("wurst_command_kind", _wire.CommandKind), ("wurst_branch_reply", _wire.BranchReplyKind),
                       ("wurst_call", entries.CallKind),
                       ("wurst_entry_kind", range(len(entries._READERS)))]:
        check(enum_of(header, name) == [int(one) for one in kind], f"the numbers of {name}")
    version = read("VERSION").strip()
    major, minor, patch = (int(part) for part in version.split("."))
    number = major * 1_000_000 + minor * 1_000 + patch
    check(f'WURST_VERSION_TEXT "{version}"' in header, "the header's version isn't that of VERSION")
    check(f"WURST_VERSION {number}\n" in header, "the header's number of the version isn't that of VERSION")
    check(_library.VERSION == number, "the package's version isn't that of VERSION")
    print(f"{passed} passed, {failed} failed")
    return failed > 0


if __name__ == "__main__":
    sys.exit(main())
