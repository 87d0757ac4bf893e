#!/usr/bin/env python3
"""Makes of the LLVM module that rattle writes for x86-64 the one that it writes for wasm64.

usage: web/retarget.py FROM.ll TO.ll EXPORT..

Both targets have pointers of 64 bits and lay data out alike, and rattle lowers to both alike but for what is
done here:

- the lines that name the target, and the attributes of functions;
- a test of the stack in each function with locals: WebAssembly has no guard page below the stack, so an
  overflow would run into other data;
- a guard round each export: after a trap the memory may be half changed, so a module that trapped once
  refuses to be called again.

What the module must not hold for this to be true is asserted: code of one machine, assembly, thread locals, and
blocks that ask from which other block they were reached.
"""

import re
import sys

TARGET = {
    "datalayout": "e-m:e-p:64:64-p10:8:8-p20:8:8-i64:64-i128:128-n32:64-S128-ni:1:10:20",
    "triple": "wasm64-unknown-unknown",
}
NATIVE = '"probe-stack"="inline-asm" "stack-probe-size"="3072" "target-cpu"="x86-64-v2"'
PORTABLE = '"no-builtin-bcmp" "no-builtin-memcmp" "no-builtin-strlen" ' + NATIVE.replace("x86-64-v2", "lime1")
OF_ONE_MACHINE = re.compile(r"llvm\.(?:x86|aarch64)\.| asm |x86_(?!64)|thread_local")

FUNCTION = re.compile(r"(?m)^define [^\n]*\{\n(?:.*\n)*?\}$")
HEAD = re.compile(r'define (?P<kind>.*?)@(?P<name>"[^"]*"|[\w.$-]+)\((?P<parameters>.*)\) #\d+ \{')
OF_VALUES = re.compile(r"\b(?:noundef|zeroext|signext) ")

# The stack grows down to 0, so what lies below its end are negative numbers. 16 bytes are kept, as rattle does.
STACK_TEST = """\
  %stack.at = call ptr @llvm.frameaddress.p0(i32 0)
  %stack.left = ptrtoaddr ptr %stack.at to i64
  %stack.out = icmp slt i64 %stack.left, 16
  br i1 %stack.out, label %stack.trap, label %stack.ok

stack.ok:
"""
STACK_TRAP = """\

stack.trap:
  call void @llvm.trap()
  unreachable
}"""

# __rattle_enter says whether an earlier call was never left; rattle-link brings the three.
GUARDED = """\
define {kind}@{name}({parameters}) #{group} {{
start:
  %is.spent = call i1 @__rattle_enter()
  br i1 %is.spent, label %spent, label %run

spent:
  call void @__rattle_trap()
  unreachable

run:
  %result = call {result} @"{inner}"({arguments})
  call void @__rattle_leave()
  ret {result} %result
}}"""
GUARDS = """
declare noundef zeroext i1 @__rattle_enter() #{plain}
declare void @__rattle_leave() #{plain}
declare void @__rattle_trap() #{plain}
"""

# Numbers of attribute groups that rattle doesn't use: of functions within, of declarations, of the first export.
WITHIN, PLAIN, FIRST_EXPORT = 900000, 900001, 900002


def with_stack_test(function):
    """Tests the stack once the function has its locals, before it does anything more with them."""
    locals_of = list(re.finditer(r"(?m)^  %\S+ = alloca .*\n", function))
    if not locals_of:
        return function
    at = locals_of[-1].end()
    first_block = function.index("\n\n") if "\n\n" in function else len(function)
    assert at <= first_block, f"a local behind the first block: {function[:100]}"
    assert " phi " not in function, f"a block that asks where it was reached from: {function[:100]}"
    return function[:at] + STACK_TEST + function[at:].removesuffix("\n}") + "\n" + STACK_TRAP


def guarded(function, number):
    """An export as a function within, and before it the guard that is exported in its place."""
    head = HEAD.match(function)
    kind, name, parameters = head["kind"], head["name"], head["parameters"]
    inner = f"rattle::export {name}"
    outer = GUARDED.format(
        kind=kind,
        name=name,
        parameters=parameters,
        group=FIRST_EXPORT + number,
        result=OF_VALUES.sub("", kind).strip(),
        inner=inner,
        arguments=OF_VALUES.sub("", parameters),
    )
    body = function[head.end() :]
    return f'{outer}\n\ndefine internal {kind}@"{inner}"({parameters}) #{WITHIN} {{{body}'


def retargeted(text, exports):
    """The whole module for wasm64."""
    for what, value in TARGET.items():
        text, count = re.subn(rf"(?m)^target {what} = .*$", f'target {what} = "{value}"', text)
        assert count == 1, what
    text = text.replace(NATIVE, PORTABLE)
    assert not OF_ONE_MACHINE.search(text), OF_ONE_MACHINE.search(text)[0]
    found = []

    def each(match):
        function = match[0]
        if function.startswith("define internal "):
            return with_stack_test(function)
        found.append(HEAD.match(function)["name"])
        return guarded(function, len(found) - 1)

    text = FUNCTION.sub(each, text)
    assert sorted(found) == sorted(exports), f"exports {found}"
    declared = ["declare ptr @llvm.frameaddress.p0(i32 immarg)", "declare void @llvm.trap()"]
    text += "".join(f"\n{line}\n" for line in declared if line not in text) + GUARDS.format(plain=PLAIN)
    text += f"\nattributes #{WITHIN} = {{ noinline nounwind {PORTABLE} }}\nattributes #{PLAIN} = {{ nounwind }}\n"
    for number, name in enumerate(found):
        text += f'attributes #{FIRST_EXPORT + number} = {{ nounwind {PORTABLE} "wasm-export-name"="{name}" }}\n'
    return text


def main():
    source, target, *exports = sys.argv[1:]
    # Strings of the program may be any bytes.
    how = {"encoding": "utf-8", "errors": "surrogateescape"}
    with open(source, **how) as text:
        made = retargeted(text.read(), exports)
    with open(target, "w", **how) as out:
        out.write(made)


if __name__ == "__main__":
    main()
