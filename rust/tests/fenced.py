"""Prints each function of a user from which a store past the caches could reach another thread too late. There should be none. It
also says so if too few functions of the package store past the caches.

    objdump -dr --no-show-raw-insn PACKAGE CRATE | fenced.py    the package, and a crate that uses it, for x86-64

A store past the caches, such as `movntdq`, is ordered with the stores after it only by an `sfence`. The proved function that
makes such stores leaves the `sfence` to its caller, which is code by hand. So this finds out what may be executed after such a
store, and after a call of a function that may return before the `sfence`. A function of the user should find all of them
done: it is printed if it calls a function of the package that may return before the `sfence`."""
import re
import sys

HEAD = re.compile(r"^[0-9a-f]+ <(.+)>:$")
INSTRUCTION = re.compile(r"^ *([0-9a-f]+):\t(?:(?:bnd|cs|data16|lock|notrack|rep\w*) )*(\S+)(.*)$")
SYMBOL = re.compile(r"^\t+[0-9a-f]+: R_X86_64_\S+\t(?:\.text\.)?([^\s+-]+)")
# The loads past the caches are `movntdqa`.
STORE = re.compile(r"v?movnt(?!dqa)")
# The functions that put lines, by their mangled names: one each for items of 4, 8 and 16 bytes.
PUT_LINES, PUT_LINES_BY = re.compile(r".*5lines\w*5Panel"), 3


def callees(code, at):
    """The functions that an instruction may call, or jump to. Through a register or memory, these are all whose address the
    function loads."""
    _, name, rest, symbol = code[at]
    if not name.startswith(("call", "jmp")):
        return set()
    if symbol or "*" not in rest:
        return {symbol or re.search(r"<([^>+]+)|$", rest)[1]}
    return {symbol for _, name, _, symbol in code if symbol and name.startswith(("mov", "lea"))}


def after(code, at):
    """The instructions that may come next. None stands for the end of the function."""
    _, name, rest, symbol = code[at]
    following = [at + 1] if at + 1 < len(code) else []
    if name.startswith(("ret", "ud2")) or not name.startswith("j"):
        return [None] if name.startswith("ret") else [] if name == "ud2" else following
    if name == "jmp" and "*" in rest and not symbol:
        # A table of addresses is not read here, so this may be anywhere in the function.
        return range(len(code))
    address = int(re.search(r"([0-9a-f]+) <|$", rest)[1] or "0", 16)
    target = next((to for to, other in enumerate(code) if other[0] == address), None)
    return [None if symbol else target, *(following if name != "jmp" else [])]


def leaves_stores(code, leaving):
    """Whether a function may return before the `sfence` that has to come after a store past the caches."""
    waiting = [at for at, found in enumerate(code) if STORE.match(found[1]) or callees(code, at) & leaving]
    seen = set(waiting)
    while waiting:
        for to in after(code, waiting.pop()):
            if to is None:
                return True
            if to not in seen and code[to][1] != "sfence":
                seen.add(to)
                waiting.append(to)
    return False


def functions(lines):
    """The instructions of each function of a disassembly, by its name: of each its address, its name, the rest of the line, and
    the symbol that it names."""
    found, code = {}, []
    for line in lines:
        if head := HEAD.match(line):
            code = found.setdefault(head[1], [])
        elif (symbol := SYMBOL.match(line)) and code:
            code[-1][3] = symbol[1]
        elif instruction := INSTRUCTION.match(line):
            code.append([int(instruction[1], 16), instruction[2], instruction[3], None])
    return found


def main():
    found, leaving = functions(sys.stdin), set()
    storing = [name for name, code in found.items() if PUT_LINES.match(name) and any(STORE.match(step[1]) for step in code)]
    if len(storing) < PUT_LINES_BY:
        print(f"only {len(storing)} functions that put lines store past the caches, instead of {PUT_LINES_BY}")
    while new := {name for name in found.keys() - leaving if leaves_stores(found[name], leaving)}:
        leaving |= new
    users = sorted(name for name in leaving if "p3_util_proved" not in name)
    print(*users, sep="\n", end="\n" if users else "")


main()
