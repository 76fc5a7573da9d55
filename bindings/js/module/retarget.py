"""Makes a module of LLVM, as the toolchain writes it for x86-64, one for WebAssembly with addresses of 32 bits.

A pointer has 4 bytes there, and 8 in the module. It stays in the first half of its 8 bytes, so that no offset and no size
changes:

- a variable for a pointer becomes one for 8 bytes;
- a load of two fields of which the second is a pointer, and not at its place, becomes two loads;
- the number of an address has 32 bits, with zeros in front;
- 4 bytes follow each pointer of a constant.

The target's two lines and the attributes of the processor change too. No other line does. A line that depends on the size
of a pointer in another way raises `Unknown`, and so does a function that is only declared and not known here.
"""

import re

LAYOUT = "e-m:e-p:32:32-p10:8:8-p20:8:8-i64:64-i128:128-n32:64-S128-ni:1:10:20"
TRIPLE = "wasm32-unknown-unknown"

# What the module may call and not define: the allocator, and operations that WebAssembly has.
DECLARED = {"rattle_alloc", "rattle_realloc", "rattle_dealloc", "llvm.trap"}
DECLARED |= {f"llvm.{name}.p0.i64" for name in ("memset",)} | {"llvm.memmove.p0.p0.i64", "llvm.memcpy.p0.p0.i64"}
OPERATIONS = re.compile(r"llvm\.(?:ctlz|cttz|ctpop|bswap|fshl|fshr|umin|umax|smin|smax|abs|u?s?add\.sat|u?s?sub\.sat)\.i\d+"
                        r"|llvm\.(?:u|s)(?:add|sub|mul)\.with\.overflow\.i\d+"
                        r"|llvm\.vector\.reduce\.\w+\.v\d+i\d+|llvm\.(?:assume|expect\.i\d+)")

PROCESSOR = re.compile(r' "(?:probe-stack|stack-probe-size|target-cpu|target-features|frame-pointer|tune-cpu)"="[^"]*"')
MEMORY = re.compile(r"^  (?:%\S+ = )?(load|store|alloca) ")
SCALAR = r"(?:i\d+|<\d+ x i\d+>|\[\d+ x i\d+\])"
NO_POINTERS = rf"\{{ {SCALAR}(?:, {SCALAR})* \}}"
# A pointer in front of 8 bytes, or behind them, is at its place.
AT_ITS_PLACE = r"\{ (?:ptr, i64|i64, ptr) \}"
TYPES = {
    "load": re.compile(rf"^  %\S+ = load (?:ptr|{SCALAR}|{NO_POINTERS}|{AT_ITS_PLACE}), ptr "),
    "store": re.compile(rf"^  store (?:ptr|{SCALAR}|{NO_POINTERS}|{AT_ITS_PLACE}) "),
    "alloca": re.compile(rf"^  %\S+ = alloca {SCALAR}, "),
}
TWO_FIELDS = re.compile(r"^  (%\S+) = load \{ (i8|ptr), ptr \}, ptr (\S+), align \d+(?:, !\S+ !\d+)*$")
VARIABLE = re.compile(r"^(  %\S+ = alloca )ptr,")
ADDRESS = re.compile(r"^  (%\S+) = ptrtoaddr ptr (\S+) to i64$")
CONSTANT = re.compile(r"^(@.*? (?:constant|global) )<\{ (.*) \}> <\{ (.*) \}>(.*)$")
IN_CONSTANT = re.compile(r"ptr (?:getelementptr \(i8, ptr @[\w.]+, i64 \d+\)|@[\w.]+|null)")
PLAIN_CONSTANT = re.compile(rf"^@.*? (?:constant|global) (?:{SCALAR}|<\{{ {SCALAR}(?:, {SCALAR})* \}}>) ")
# Each step from a pointer is counted in bytes.
STEP = re.compile(r"getelementptr (?!(?:inbounds |nuw |nusw )*\(?i8, )")
UNKNOWN = re.compile(r"\b(?:inttoptr|ptrtoint|addrspacecast|byval|inalloca|blockaddress|asm)\b|\bx ptr[\]>]|\{[^{}]*\bptr\b[^{}]*\}\*")


class Unknown(Exception):
    """A line of the module of which it is not known that it means the same for WebAssembly."""


def narrow_load(found):
    """Two loads in the place of one of two fields."""
    name, first, at = found.groups()
    pair = f"{{ {first}, ptr }}"
    return (f"  {name}.first = load {first}, ptr {at}, align 1\n"
            f"  {name}.at = getelementptr i8, ptr {at}, i64 8\n"
            f"  {name}.second = load ptr, ptr {name}.at, align 1\n"
            f"  {name}.one = insertvalue {pair} poison, {first} {name}.first, 0\n"
            f"  {name} = insertvalue {pair} {name}.one, ptr {name}.second, 1\n")


def narrow_constant(line):
    """A constant with 4 bytes behind each pointer."""
    if PLAIN_CONSTANT.match(line):
        return line
    found = CONSTANT.match(line)
    if not found:
        raise Unknown(line)
    head, types, values, rest = found.groups()
    types = re.sub(r"\bptr\b", "ptr, [4 x i8]", types)
    values = IN_CONSTANT.sub(lambda pointer: pointer[0] + ", [4 x i8] zeroinitializer", values)
    if types.count("ptr") != values.count("[4 x i8] zeroinitializer"):
        raise Unknown(line)
    return f"{head}<{{ {types} }}> <{{ {values} }}>{rest}\n"


def narrow(line):
    """A line that means with pointers of 4 bytes what it means with those of 8."""
    if line.startswith("@"):
        return narrow_constant(line)
    if UNKNOWN.search(line) or STEP.search(line):
        raise Unknown(line)
    memory = MEMORY.match(line)
    if memory and not TYPES[memory[1]].match(line):
        if VARIABLE.match(line):
            return VARIABLE.sub(r"\1i64,", line)
        found = TWO_FIELDS.match(line)
        if not found:
            raise Unknown(line)
        return narrow_load(found)
    found = ADDRESS.match(line)
    if found:
        return f"  {found[1]}.narrow = ptrtoaddr ptr {found[2]} to i32\n  {found[1]} = zext i32 {found[1]}.narrow to i64\n"
    return line


def retargeted(lines):
    """The lines of a module for WebAssembly, of those of one for x86-64."""
    for line in lines:
        if line.startswith("target datalayout"):
            yield f'target datalayout = "{LAYOUT}"\n'
        elif line.startswith("target triple"):
            yield f'target triple = "{TRIPLE}"\n'
        elif line.startswith("attributes #"):
            yield PROCESSOR.sub("", line).replace("{ }", "{ nounwind }")
        elif line.startswith("declare "):
            name = re.search(r"@([\w.]+)\(", line)[1]
            if name not in DECLARED and not OPERATIONS.fullmatch(name):
                raise Unknown(line)
            yield line
        else:
            yield narrow(line)
