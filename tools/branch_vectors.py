#!/usr/bin/env python3
"""Writes crates/branch/stdin and crates/branch/stdout.

The bytes of every branch come from the GNU assembler (`as --32`, of binutils); the refusals and the lines
that are not understood are written out below by the rules of docs/. No program of this repository is run.
"""
import pathlib
import subprocess
import tempfile

FOLDER = pathlib.Path(__file__).resolve().parent.parent / "crates" / "branch"
LOWEST, HIGHEST = -33_554_432, 33_554_431
CONDITIONS = "o no b ae e ne be a s ns p np l ge le g".split()


def assemble(statement):
    """The bytes of one statement, by the GNU assembler."""
    with tempfile.TemporaryDirectory() as folder:
        source, linked, raw = (pathlib.Path(folder, name) for name in ("a.s", "a.o", "a.bin"))
        source.write_text(statement + "\n")
        subprocess.run(["as", "--32", "-o", linked, source], check=True)
        relocations = subprocess.run(["objdump", "-r", linked], check=True, capture_output=True, text=True).stdout
        assert "R_386" not in relocations, relocations
        subprocess.run(["objcopy", "-O", "binary", "-j", ".text", linked, raw], check=True)
        return raw.read_bytes()


def forms():
    """Kind, form, the statement's start, and the reach of every form."""
    for kind, letters in enumerate(CONDITIONS):
        yield kind, 0, f"j{letters}", -126, 129
        yield kind, 1, f"{{disp32}} j{letters}", LOWEST, HIGHEST
    yield 16, 0, "jmp", -126, 129
    yield 16, 1, "{disp32} jmp", LOWEST, HIGHEST
    yield 17, 0, "call", LOWEST, HIGHEST
    yield 18, 0, "jecxz", -126, 129


def lines():
    """Every line with what is printed after it, or None where nothing is printed."""
    for kind, form, start, low, high in forms():
        for distance in (low, -1, 0, high):
            sign = "+" if distance >= 0 else "-"
            code = assemble(f"{start} .{sign}{abs(distance)}").hex()
            yield f"x86 write {kind} {form} {distance}", code
            yield f"x86 read {code}", f"kind {kind} form {form} distance {distance}"
        for distance in (low - 1, high + 1):
            yield f"x86 write {kind} {form} {distance}", "refused 14"
    for start in ("{disp32} jne", "{disp32} jmp", "call"):
        for distance in (f"-{-LOWEST + 1}", f"+{HIGHEST + 1}", "+0x7fffffff", "-0x7ffffff0"):
            yield "x86 read " + assemble(f"{start} .{distance}").hex(), "no branch"

    # kinds and forms that do not exist, the kind first
    for kind in (19, 20, 255, 4096, 4294967295):
        yield f"x86 write {kind} 0 0", "refused 6"
    yield "x86 write 19 9 2147483647", "refused 6"
    for kind, form in ((0, 2), (15, 2), (16, 2), (17, 1), (18, 1), (16, 4294967295)):
        yield f"x86 write {kind} {form} 0", "refused 14"
    yield "x86 write 16 0 2147483647", "refused 14"
    yield "x86 write 16 1 -2147483648", "refused 14"

    # bytes that are no branch: other instructions, and branches cut short or with a byte too many
    for statement in ("nop", "loop .", "jcxz .", "ret", "int3", "jmp *%eax", "call *%eax", "sete %al", "push $0x7f"):
        yield "x86 read " + assemble(statement).hex(), "no branch"
    for code in ("eb", "eb7f00", "e97c0000", "e97c00000000", "0f", "0f8502", "0f8500000000ff", "0f7f00000000", "0f9000000000"):
        yield f"x86 read {code}", "no branch"
    yield "x86 read " + "00" * 17, "no branch"
    yield "x86 read " + "eb7f" * 400, "no branch"

    # either case, blanks, leading zeros
    yield "x86 read EB7F", "kind 16 form 0 distance 129"
    yield "x86 read 0F8A0a000000", "kind 10 form 1 distance 16"
    yield " \tx86  write\t16 0   129 ", "eb7f"
    yield "x86 write 0016 00 -00000000000126", "eb80"
    yield "x86 write 16 0 -0", "ebfe"
    for blank in ("", " ", "\t", "  \t "):
        yield blank, None

    # lines that ask nothing
    for line in (
        "x86", "x86 write", "x86 write 16", "x86 write 16 0", "x86 write 16 0 0 0", "x86 read", "x86 read eb 7f",
        "x86 read eb7", "x86 read e", "x86 read eb7g", "x86 read 0xeb7f", "x86 write 4294967296 0 0",
        "x86 write 16 4294967296 0", "x86 write 16 0 2147483648", "x86 write 16 0 -2147483649",
        "x86 write 99999999999999999999 0 0", "x86 write -1 0 0", "x86 write +16 0 0", "x86 write 16 0 +1",
        "x86 write 16 0 -", "x86 write 16 0 --1", "x86 write 16 0 1-", "x86 write 0x10 0 0", "x86 write a 0 0",
        "x86 writes 16 0 0", "X86 write 16 0 0", "x86 Write 16 0 0", "x86write 16 0 0", "riscy write 0 0 0", "write 16 0 0",
        "x86 write 16,0,0", "x86 read eb7f ;", "x86 read eb7f\r", "x86 read eb7f\0", "\x80\xff", "x86 read \xc3\xa9",
        "x86\vread eb7f", "=", "x" * 5000,
    ):
        yield line, "not understood"
    yield "x86 read eb00", "kind 16 form 0 distance 2"


def main():
    pairs = list(lines())
    typed = "\n".join(line for line, _ in pairs)
    printed = "".join(f"{line} = {answer}\n" for line, answer in pairs if answer is not None)
    (FOLDER / "stdin").write_bytes(typed.encode("latin-1"))
    (FOLDER / "stdout").write_bytes(printed.encode("latin-1"))
    print(f"{len(pairs)} lines")


main()
