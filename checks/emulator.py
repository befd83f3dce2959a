"""Runs code on the emulator qemu-s390x: a static ELF file with the code, regions of memory, and a stub before and behind them.

The stub loads all registers from memory, branches to the code with the condition code that is wanted, and stores the registers when the code returns to
RETURN, or when a signal stops it. Then it writes the registers and the regions to standard output.
"""
import os
import shutil
import struct
import subprocess
import time

PAGE = 0x1000
STUB = 0x20000
RETURN = STUB + 0x400
HANDLER = STUB + 0x800
START = 0x28000
RESULT = 0x2a000
STACK = 0x30000
STACK_SIZE = 0x8000
RESULT_SIZE = 0x400

# Where the parts of a result lie in it. The general registers stand first, as STMG stores them.
CODE, SIGNAL, SIGNAL_CODE, SIGNAL_ADDRESS, PLACE, VECTORS = 0x80, 0x88, 0x90, 0x98, 0xa0, 0x100

SIGILL, SIGTRAP, SIGBUS, SIGFPE, SIGSEGV = 4, 5, 7, 8, 11
SIGNALS = [SIGILL, SIGTRAP, SIGBUS, SIGFPE, SIGSEGV]
SYS_EXIT, SYS_READ, SYS_WRITE, SYS_SIGACTION, SYS_SIGALTSTACK = 1, 3, 4, 174, 186

EMULATOR = "qemu-s390x"


def missing():
    """What has to be installed, or None."""
    if shutil.which(EMULATOR):
        return None
    return "qemu-s390x isn't installed: apt-get install qemu-user"


# Instructions of the stub (Principles of Operation, appendix B).
def lgfi(register, value):
    return struct.pack(">BBi", 0xc0, register << 4 | 1, value)


def long_form(first, last, r1, x_or_r3, base, displacement):
    low, high = displacement & 0xfff, displacement >> 12 & 0xff
    return bytes([first, r1 << 4 | x_or_r3, base << 4 | low >> 8, low & 0xff, high, last])


def lmg(r1, r3, address):
    return long_form(0xeb, 0x04, r1, r3, 0, address)


def stmg(r1, r3, address):
    return long_form(0xeb, 0x24, r1, r3, 0, address)


def lg(r1, displacement, base):
    return long_form(0xe3, 0x04, r1, 0, base, displacement)


def lgf(r1, displacement, base):
    return long_form(0xe3, 0x14, r1, 0, base, displacement)


def stg(r1, address):
    return long_form(0xe3, 0x24, r1, 0, 0, address)


def vector_access(last, v1, displacement, base):
    return bytes([0xe7, (v1 & 15) << 4, base << 4 | displacement >> 8, displacement & 0xff, (v1 >> 4) << 3, last])


def mvc(length, d1, b1, d2, b2):
    return struct.pack(">BBHH", 0xd2, length - 1, b1 << 12 | d1, b2 << 12 | d2)


def ipm(register):
    return bytes([0xb2, 0x22, 0, register << 4])


def branch(source, target):
    return struct.pack(">BBi", 0xc0, 0xf4, (target - source) // 2)


def call(number, *arguments):
    loads = b"".join(lgfi(2 + i, argument) for i, argument in enumerate(arguments))
    return loads + bytes([0x0a, number])


def set_code(code):
    """Sets the condition code, by SPM of %r0."""
    return lgfi(0, code << 28) + bytes([0x04, 0x00])


def entry(base, areas, condition):
    """Installs the handler, sets the condition code, loads the registers and branches to the code."""
    code = call(SYS_SIGALTSTACK, areas["stack"], 0)
    for signal in SIGNALS:
        code += call(SYS_SIGACTION, signal, areas["action"], 0, 8)
    code += lgfi(1, START + 0x80)
    code += b"".join(vector_access(0x06, v, 16 * v, 1) for v in range(32))
    code += set_code(condition) + lmg(0, 15, START)
    return code + branch(STUB + len(code), base)


def ending(regions):
    """Stores the vector registers, writes everything, and ends."""
    code = lgfi(1, RESULT + VECTORS)
    code += b"".join(vector_access(0x0e, v, 16 * v, 1) for v in range(32))
    code += write(RESULT, RESULT_SIZE)
    for address, data in regions:
        code += write(address, len(data))
    return code + call(SYS_EXIT, 0)


def write(address, length):
    # The address may have more than 31 bits: IIHF puts its left half there.
    head = lgfi(2, 1) + struct.pack(">BBI", 0xc0, 3 << 4 | 8, address >> 32)
    head += struct.pack(">BBI", 0xc0, 3 << 4 | 9, address & 0xffffffff)
    return head + lgfi(4, length) + bytes([0x0a, SYS_WRITE])


def behind_return(tail):
    code = stmg(0, 15, RESULT) + ipm(0) + stg(0, RESULT + CODE)
    return code + branch(RETURN + len(code), tail)


def handler(tail):
    """Stores what a signal tells: %r2 is its number, %r3 the address of its information, %r4 that of the context."""
    code = ipm(0) + stg(0, RESULT + CODE) + stg(2, RESULT + SIGNAL)
    code += lgf(0, 8, 3) + stg(0, RESULT + SIGNAL_CODE)
    code += lg(0, 16, 3) + stg(0, RESULT + SIGNAL_ADDRESS)
    code += lg(0, 48, 4) + stg(0, RESULT + PLACE)
    code += lgfi(1, RESULT) + mvc(0x80, 0, 1, 56, 4)
    return code + branch(HANDLER + len(code), tail)


def stub(base, regions, condition):
    """The stub's page, with what its calls of the system read."""
    areas = {"stack": STUB + 0xf00, "action": STUB + 0xf40}
    tail = STUB + 0x900
    page = bytearray(PAGE)

    def put(address, data, limit):
        assert address + len(data) <= limit
        page[address - STUB:address - STUB + len(data)] = data

    put(STUB, entry(base, areas, condition), RETURN)
    put(RETURN, behind_return(tail), HANDLER)
    put(HANDLER, handler(tail), tail)
    put(tail, ending(regions), areas["stack"])
    put(areas["stack"], struct.pack(">QIIQ", STACK, 0, 0, STACK_SIZE), areas["action"])
    # SA_SIGINFO and SA_ONSTACK; no restorer and no mask.
    put(areas["action"], struct.pack(">QQQQ", HANDLER, 0x08000004, 0, 0), STUB + PAGE)
    return bytes(page)


def elf(segments):
    """A static file for s390x whose segments are read, written and executed. It begins at the stub."""
    header_size, entry_size = 64, 56
    head = struct.pack(">16sHHIQQQIHHHHHH", b"\x7fELF\x02\x02\x01" + bytes(9), 2, 22, 1, STUB, header_size, 0, 0, header_size,
                       entry_size, len(segments), 0, 0, 0)
    table, body, offset = b"", b"", PAGE
    for address, data in segments:
        padded = data + bytes(-len(data) % PAGE)
        table += struct.pack(">IIQQQQQQ", 1, 7, offset, address, address, len(padded), len(padded), PAGE)
        body += padded
        offset += len(padded)
    return (head + table).ljust(PAGE, b"\0") + body


class Broken(Exception):
    """The emulator broke down."""


class Emulated:
    """How the emulator's run ended: the kind of the stop (None for a return), the place, the condition code, registers and regions."""

    def __init__(self, output, regions):
        def number(offset):
            return int.from_bytes(output[offset:offset + 8], "big")

        self.general = [number(8 * i) for i in range(16)]
        self.code = number(CODE) >> 28 & 3
        self.vector = [int.from_bytes(output[VECTORS + 16 * i:VECTORS + 16 * i + 16], "big") for i in range(32)]
        self.kind, self.place = stop(number(SIGNAL), number(SIGNAL_CODE), number(SIGNAL_ADDRESS), number(PLACE))
        self.memory, offset = {}, RESULT_SIZE
        for address, data in regions:
            self.memory[address] = output[offset:offset + len(data)]
            offset += len(data)


def stop(signal, code, address, place):
    """The kind of a stop and the instruction's place. A signal of an access tells the operand's address, others the instruction's."""
    if signal == 0:
        return None, RETURN
    if signal in (SIGSEGV, SIGBUS):
        return "Access", place
    if signal == SIGFPE:
        return ("Divide" if code == 1 else "CompareTrap"), address
    if signal == SIGILL and code == 2:
        return "Specification", address
    return "Operation", address


def run(base, image, general, vector, regions, folder, condition=0):
    """Runs the image from its base with these registers, regions, each on pages of its own, and condition code; None where it doesn't end."""
    values = struct.pack(">16Q", *general) + b"".join(v.to_bytes(16, "big") for v in vector)
    segments = [(STUB, stub(base, regions, condition)), (START, values), (RESULT, bytes(PAGE)), (STACK, bytes(STACK_SIZE)), (base, image)]
    path = os.path.join(folder, "function.elf")
    with open(path, "wb") as file:
        file.write(elf(segments + regions))
    os.chmod(path, 0o700)
    try:
        done = subprocess.run([EMULATOR, "-cpu", "max", path], stdout=subprocess.PIPE, stderr=subprocess.DEVNULL, timeout=20)
    except subprocess.TimeoutExpired:
        return None
    if done.returncode != 0 or len(done.stdout) != RESULT_SIZE + sum(len(data) for _, data in regions):
        raise Broken
    return Emulated(done.stdout, regions)


# Of many runs in one process: where the loop begins, behind which standard input's next run is read, and how long one may take, in seconds.
LOOP = STUB + 0x600
PATIENCE = 10


def read_into(address, length):
    """Reads from standard input; %r2 is how many bytes there were."""
    head = lgfi(2, 0) + struct.pack(">BBI", 0xc0, 3 << 4 | 8, address >> 32) + struct.pack(">BBI", 0xc0, 3 << 4 | 9, address & 0xffffffff)
    return head + lgfi(4, length) + bytes([0x0a, SYS_READ])


def looping(base, size, regions):
    """Reads registers, condition code, code and regions, and branches to the code; it ends where there are no more."""
    code = read_into(START, 0x288)
    code += bytes.fromhex("b9020022") + struct.pack(">BBi", 0xc0, 0x24, 6 // 2 + len(call(SYS_EXIT, 0)) // 2) + call(SYS_EXIT, 0)
    code += read_into(base, size) + b"".join(read_into(address, length) for address, length in regions)
    code += lgfi(0, 0) + stg(0, RESULT + SIGNAL) + lgfi(1, START + 0x80)
    code += b"".join(vector_access(0x06, v, 16 * v, 1) for v in range(32))
    code += lg(0, 0x200, 1) + bytes([0x04, 0x00]) + lmg(0, 15, START)
    return code + branch(LOOP + len(code), base)


def looping_stub(base, size, regions):
    """The stub's two pages of many runs."""
    areas = {"stack": STUB + 0xf00, "action": STUB + 0xf40}
    tail = STUB + 0x900
    page = bytearray(PAGE)
    opening = call(SYS_SIGALTSTACK, areas["stack"], 0) + b"".join(call(SYS_SIGACTION, signal, areas["action"], 0, 8) for signal in SIGNALS)
    ended = ending([(address, bytes(length)) for address, length in regions])[:-len(call(SYS_EXIT, 0))]
    # SA_SIGINFO, SA_ONSTACK and SA_NODEFER, since no handler returns
    parts = [(STUB, opening + branch(STUB + len(opening), LOOP)), (RETURN, behind_return(tail)), (LOOP, looping(base, size, regions)),
             (HANDLER, handler(tail)), (tail, ended + branch(tail + len(ended), LOOP)), (areas["stack"], struct.pack(">QIIQ", STACK, 0, 0, STACK_SIZE)),
             (areas["action"], struct.pack(">QQQQ", HANDLER, 0x48000004, 0, 0)), (STUB + PAGE, b"")]
    for (place, data), (behind, _) in zip(parts, parts[1:]):
        assert place + len(data) <= behind, hex(place)
        page[place - STUB:place - STUB + len(data)] = data
    return bytes(page)


def run_many(base, size, runs, regions, folder):
    """Runs many pieces of code of so many bytes in as few processes as may be. A run is its code, general and vector registers, condition code and the bytes of
    each region, whose addresses and lengths `regions` tells. Yields what `run` answers of each: None where it doesn't end, and "broken" where the emulator breaks
    down."""
    path, given, taken = (os.path.join(folder, name) for name in ("many.elf", "many.in", "many.out"))
    segments = [(STUB, looping_stub(base, size, regions)), (START, bytes(PAGE)), (RESULT, bytes(PAGE)), (STACK, bytes(STACK_SIZE))]
    pages = {page for address, length in [(base, size)] + regions for page in range(address & -PAGE, address + length, PAGE)}
    with open(path, "wb") as file:
        file.write(elf(segments + [(page, bytes(PAGE)) for page in sorted(pages)]))
    os.chmod(path, 0o700)
    length = RESULT_SIZE + sum(length for _, length in regions)
    while runs:
        with open(given, "wb") as file:
            for code, general, vector, condition, contents in runs:
                file.write(struct.pack(">16Q", *general) + b"".join(v.to_bytes(16, "big") for v in vector) + struct.pack(">Q", condition << 28))
                file.write(code.ljust(size, b"\0") + b"".join(contents))
        last = ended_runs(path, given, taken, length)
        with open(taken, "rb") as file:
            for _ in range(os.path.getsize(taken) // length):
                yield Emulated(file.read(length), [(address, bytes(size)) for address, size in regions])
        runs = runs[os.path.getsize(taken) // length:]
        if runs:
            yield last
            runs = runs[1:]


def ended_runs(path, given, taken, length):
    """Runs the process until it ends, breaks down or takes too long with one run; what the run is then that wasn't written."""
    with open(given, "rb") as source, open(taken, "wb") as target:
        process = subprocess.Popen([EMULATOR, "-cpu", "max", path], stdin=source, stdout=target, stderr=subprocess.DEVNULL)
        size, since = 0, time.monotonic()
        while process.poll() is None:
            time.sleep(0.02)
            now = os.path.getsize(taken)
            if now // length != size // length:
                size, since = now, time.monotonic()
            elif time.monotonic() - since > PATIENCE:
                process.kill()
                process.wait()
                return None
    return "broken"
