"""The targets of c/targets/build: what compiles for each, and what runs its programs."""

from dataclasses import dataclass
from pathlib import Path
from typing import List, Sequence


@dataclass(frozen=True)
class Target:
    """A processor: what compiles for it, and what runs the programs there."""

    name: str
    prefix: str  # of gcc and its tools
    emulator: str
    given: Sequence[str] = ()  # to gcc
    clang: Sequence[str] = ()  # to the toolchain's clang
    headers: str = ""  # of its C library, for clang
    board: Sequence[str] = ()  # of the emulator; none where there is Linux
    memory: Sequence[str] = ()  # the board's code and data: begin and size of each
    linker: Sequence[str] = ()  # to ld

    @property
    def is_here(self) -> bool:
        return self.prefix == ""

    @property
    def compiler(self) -> str:
        return f"{self.prefix}gcc"

    def command(self, program: Path) -> List[str]:
        if self.is_here:
            return [str(program)]
        if not self.board:
            return [self.emulator, str(program)]
        quiet = ["-nographic", "-monitor", "none", "-serial", "none"]
        hosting = ["-semihosting-config", "enable=on,target=native"]
        return [self.emulator, *self.board, *quiet, *hosting, "-kernel", str(program)]


ARM, RISCV = "/usr/lib/picolibc/arm-none-eabi/include", "/usr/lib/picolibc/riscv64-unknown-elf/include"
BIG = ["0", "0x400000", "0x20000000", "0x400000"]
SMALL = ["0", "0x40000", "0x20000000", "0x4000"]
HIGH = ["0x80000000", "0x400000", "0x80400000", "0x400000"]
V7EM = ["-mthumb", "-mcpu=cortex-m4"]


def board(name: str, cpu: Sequence[str], machine: str, memory: Sequence[str]) -> Target:
    """A Cortex-M."""
    emulated = ["-machine", machine]
    return Target(name, "arm-none-eabi-", "qemu-system-arm", cpu, [f"--target={name}"], ARM, emulated, memory)


TARGETS = [
    Target("x86_64-unknown-linux-gnu", "", "qemu-x86_64", ["-static"], [], "/usr/include"),
    Target(
        "aarch64-unknown-linux-gnu", "aarch64-linux-gnu-", "qemu-aarch64", ["-static"], ["--target=aarch64-linux-gnu"],
        "/usr/aarch64-linux-gnu/include",
    ),
    board("thumbv6m-none-eabi", ["-mthumb", "-mcpu=cortex-m0"], "microbit", SMALL),
    board("thumbv7m-none-eabi", ["-mthumb", "-mcpu=cortex-m3"], "mps2-an385", BIG),
    board("thumbv7em-none-eabi", [*V7EM, "-mfloat-abi=soft"], "mps2-an386", BIG),
    board("thumbv7em-none-eabihf", [*V7EM, "-mfloat-abi=hard", "-mfpu=fpv4-sp-d16"], "mps2-an386", BIG),
    Target(
        "armv7-unknown-linux-gnueabihf", "arm-linux-gnueabihf-", "qemu-arm", ["-static"],
        ["--target=armv7-linux-gnueabihf"], "/usr/arm-linux-gnueabihf/include",
    ),
    Target(
        "riscv32imac-unknown-none-elf", "riscv64-unknown-elf-", "qemu-system-riscv32",
        ["-march=rv32imac", "-mabi=ilp32"], ["--target=riscv32-unknown-none-elf", "-march=rv32imac", "-mabi=ilp32"],
        RISCV, ["-machine", "virt", "-bios", "none"], HIGH, ["-m", "elf32lriscv"],
    ),
]
