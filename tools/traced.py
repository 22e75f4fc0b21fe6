"""Runs a program with one of its calls changed: a growth of memory that is refused, or a read or a write that fails or is short.

The program is traced (ptrace), so what runs is the program as it was built. Linux on x86-64 alone.
"""

import ctypes
import os
import signal
import struct
import tempfile
from dataclasses import dataclass

TRACEME, PEEK_REGS, POKE_REGS, CONT, STEP, SYSCALL, OPTIONS = 0, 12, 13, 7, 9, 24, 0x4200
EXIT_KILL, TRACE_EXIT, MARK_SYSCALLS = 0x100000, 0x40, 0x1
EVENT_EXIT = 6
READ, WRITE = 0, 1
EIO = 5
INT3 = 0xCC

# What takes memory in every program that the toolchain builds.
GROWTHS = ("rattle_alloc", "rattle_realloc")

libc = ctypes.CDLL(None, use_errno=True)
libc.ptrace.restype = ctypes.c_long
libc.ptrace.argtypes = [ctypes.c_long, ctypes.c_long, ctypes.c_void_p, ctypes.c_void_p]


class Registers(ctypes.Structure):
    _fields_ = [
        (name, ctypes.c_ulonglong)
        for name in (
            "r15 r14 r13 r12 rbp rbx r11 r10 r9 r8 rax rcx rdx rsi rdi orig_rax rip cs eflags rsp ss "
            "fs_base gs_base ds es fs gs"
        ).split()
    ]


@dataclass
class Ended:
    """How a run ended; the calls of the kind that was counted; the most memory that was resident, in kB."""

    status: int
    output: bytes
    errors: bytes
    calls: int
    resident: int


@dataclass
class Change:
    """The call of this number, from 1, is changed. Growths are refused, a read or write fails or, if `short`, moves one byte."""

    growths: bool = False
    descriptor: int = -1
    number: int = 0
    short: bool = False


def ptrace(request, pid, address=0, data=0):
    if libc.ptrace(request, pid, address, data) == -1:
        error = ctypes.get_errno()
        raise OSError(error, "ptrace: " + os.strerror(error))


def symbols(program, names):
    """The addresses of functions, as the file of the program has them."""
    data = open(program, "rb").read()
    sections = struct.unpack_from("<Q", data, 0x28)[0]
    count = struct.unpack_from("<H", data, 0x3C)[0]
    heads = [struct.unpack_from("<IIQQQQIIQQ", data, sections + 64 * i) for i in range(count)]
    found = {}
    for _, kind, _, _, offset, size, link, _, _, _ in heads:
        if kind != 2:
            continue
        texts = heads[link][4]
        for at in range(offset, offset + size, 24):
            name, _, _, _, value, _ = struct.unpack_from("<IBBHQQ", data, at)
            text = data[texts + name : data.index(b"\0", texts + name)].decode()
            if text in names and value:
                found[text] = value
    return [found[name] for name in names]


class Tracer:
    """A run of a program under trace."""

    def __init__(self, program, words, files):
        self.pid = os.fork()
        if self.pid == 0:
            try:
                for number, file in enumerate(files):
                    os.dup2(file.fileno(), number)
                libc.ptrace(TRACEME, 0, 0, 0)
                os.execv(program, [program, *words])
            finally:
                os._exit(127)
        os.waitpid(self.pid, 0)
        ptrace(OPTIONS, self.pid, 0, EXIT_KILL | TRACE_EXIT | MARK_SYSCALLS)
        self.memory = open(f"/proc/{self.pid}/mem", "r+b", buffering=0)
        self.breaks = {}
        self.calls = 0
        self.resident = 0

    def registers(self):
        found = Registers()
        ptrace(PEEK_REGS, self.pid, 0, ctypes.addressof(found))
        return found

    def put_registers(self, registers):
        ptrace(POKE_REGS, self.pid, 0, ctypes.addressof(registers))

    def put(self, address, value):
        self.memory.seek(address)
        self.memory.write(value)

    def word(self, address):
        self.memory.seek(address)
        return struct.unpack("<Q", self.memory.read(8))[0]

    def stop_at(self, program, names):
        """Sets a breakpoint at each of these functions."""
        path = os.path.realpath(program)
        with open(f"/proc/{self.pid}/maps") as maps:
            base = next(int(line.split("-")[0], 16) for line in maps if line.rstrip().endswith(path))
        for value in symbols(program, names):
            self.memory.seek(base + value)
            self.breaks[base + value] = self.memory.read(1)
            self.put(base + value, bytes([INT3]))

    def at_break(self, change):
        """A growth: it is refused if its number has come, and else goes on."""
        registers = self.registers()
        address = registers.rip - 1
        if address not in self.breaks:
            return
        self.calls += 1
        if self.calls == change.number:
            registers.rax = 0
            registers.rip = self.word(registers.rsp)
            registers.rsp += 8
            self.put_registers(registers)
            return
        registers.rip = address
        self.put_registers(registers)
        self.put(address, self.breaks[address])
        ptrace(STEP, self.pid)
        os.waitpid(self.pid, 0)
        self.put(address, bytes([INT3]))

    def at_call(self, change, entry):
        """A system call, as it begins; answers whether it is to fail as it ends."""
        registers = self.registers()
        wanted = READ if change.descriptor == 0 else WRITE
        if not entry or registers.orig_rax != wanted or registers.rdi != change.descriptor:
            return False
        self.calls += 1
        if self.calls != change.number:
            return False
        if change.short:
            registers.rdx = min(registers.rdx, 1)
        else:
            registers.orig_rax = 2**64 - 1
        self.put_registers(registers)
        return not change.short

    def go_on(self, change):
        """Runs the program to its end, and answers its status."""
        entry, fails, passed = True, False, 0
        traced = SYSCALL if change.descriptor >= 0 else CONT
        while True:
            ptrace(traced, self.pid, 0, passed)
            _, state = os.waitpid(self.pid, 0)
            passed = 0
            if os.WIFEXITED(state):
                return os.WEXITSTATUS(state)
            if os.WIFSIGNALED(state):
                return 128 + os.WTERMSIG(state)
            found = os.WSTOPSIG(state)
            if state >> 16 == EVENT_EXIT:
                self.resident = self.high_water()
            elif found == signal.SIGTRAP | 0x80:
                if fails:
                    registers = self.registers()
                    registers.rax = 2**64 - EIO
                    self.put_registers(registers)
                fails = self.at_call(change, entry)
                entry = not entry
            elif found == signal.SIGTRAP:
                self.at_break(change)
            else:
                passed = found

    def high_water(self):
        with open(f"/proc/{self.pid}/status") as status:
            return next(int(line.split()[1]) for line in status if line.startswith("VmHWM"))


def run(program, words, data, change=Change()):
    """Runs a program on some input."""
    with tempfile.TemporaryFile() as source, tempfile.TemporaryFile() as output, tempfile.TemporaryFile() as errors:
        source.write(data)
        source.flush()
        source.seek(0)
        tracer = Tracer(program, words, (source, output, errors))
        if change.growths:
            tracer.stop_at(program, GROWTHS)
        status = tracer.go_on(change)
        tracer.memory.close()
        output.seek(0)
        errors.seek(0)
        return Ended(status, output.read(), errors.read(), tracer.calls, tracer.resident)
