#!/usr/bin/env python3
"""Writes the example images into a folder: each is system memory with channel 1's control block at address 0; I/O memories
with ports; and a board's PROM file."""
import sys
from pathlib import Path

# Commands of the CCW, and where an image usually has its parameter block and its program.
START_IO, START_SYSTEM, RESUME, SUSPEND, HALT = 1, 3, 5, 6, 7
INTERRUPTS = 0x10  # ICF 10, beside a command: SINTR may raise the interrupt
PB, PROGRAM = 0x10, 0x40


def code(*lines):
    """The bytes of a program: hexadecimal text, with the instruction in words behind a semicolon."""
    return bytes.fromhex(" ".join(line.split(";")[0] for line in lines))


def word(value):
    """A word, low byte first."""
    return value.to_bytes(2, "little")


def doubleword(address):
    """A doubleword pointer: offset, then segment."""
    return word(address % 65536) + word(address // 65536 * 4096)


def image(length, *parts):
    """Zeros with each (address, bytes) put in."""
    memory = bytearray(length)
    for address, data in parts:
        memory[address:address + len(data)] = data
    assert len(memory) == length
    return bytes(memory)


def block(command):
    """A control block: CCW, BUSY, and the address of the parameter block."""
    return bytes([command, 0]) + doubleword(PB)


def started(length, program, *parts, parameters=b"", control=0):
    """An image that starts a program in system space; the parameters follow its address in the parameter block."""
    head = block(START_SYSTEM | control)
    return image(length, (0, head), (PB, doubleword(PROGRAM) + parameters), (PROGRAM, program), *parts)


# Copies a block, from GB to GA, and says in the parameter block that it is there.
COPY = code(
    "63 83 04    ; MOV   BC,[PP].4: how many bytes",
    "23 8B 06    ; LPD   GB,[PP].6: where they are",
    "03 8B 0A    ; LPD   GA,[PP].10: where they go",
    "E0 00       ; WID   16,16",
    "D1 30 08 C4 ; MOVI  CC,0C408H: both move on, the source is GB, count ends at 0",
    "60 00       ; XFER",
    "0A 4F 0E 00 ; MOVBI [PP].14,0: not there yet",
    "0A 4F 0E 01 ; MOVBI [PP].14,1: all there",
    "20 48       ; HLT",
)

# Registers that are worth saving, since a fresh channel has 0 in all of them.
LOAD = code(
    "11 08 CD 0B 00 40 ; LPDI  GA,0BCDH,4000H: 40BCDh, system",
    "31 30 07 60       ; MOVI  GB,6007H: 06007h, I/O",
    "48 30 90          ; MOVBI GC,90H: FFF90h, I/O",
    "B1 30 A5 A5       ; MOVI  IX,0A5A5H",
    "71 30 01 02       ; MOVI  BC,0201H",
    "F1 30 03 04       ; MOVI  MC,0403H",
    "D1 30 05 06       ; MOVI  CC,0605H",
)

# Saves the registers behind the parameter block's first four bytes: IX first, since it then walks over the others.
SAVE = code(
    "A3 87 04    ; MOV  [PP].4,IX",
    "B1 30 06 00 ; MOVI IX,6",
    "47 9B       ; MOVP [PP+IX+],GC: IX grows by 3",
    "27 9B       ; MOVP [PP+IX+],GB",
    "07 9B       ; MOVP [PP+IX+],GA",
    "E7 87       ; MOV  [PP+IX+],MC: IX grows by 2",
    "C7 87       ; MOV  [PP+IX+],CC",
    "67 87       ; MOV  [PP+IX+],BC",
    "20 48       ; HLT",
)

# Reads a sector from a controller in I/O space: status at 8000h (bit 7 busy), command at 8001h, sector at 8002h,
# data at 8004h, with a request for each byte. The parameter block holds a buffer, a length, a sector, and a result.
SECTOR = code(
    "51 30 00 80       ; MOVI  GC,8000H: F8000h, of which I/O space takes 8000h",
    "11 30 04 80       ; MOVI  GA,8004H",
    "23 8B 04          ; LPD   GB,[PP].4",
    "63 83 08          ; MOV   BC,[PP].8",
    "80 00             ; WID   8,8",
    "D1 30 48 88       ; MOVI  CC,8848H: port to block, a request for each; count ends at 0, EXT at 4",
    "EA BE 00 FC       ; JBT   [GC].0,7: here again while it is busy",
    "02 93 0A 02 CE 02 ; MOVB  [GC].2,[PP].10",
    "60 00             ; XFER",
    "0A 4E 01 52       ; MOVBI [GC].1,'R': it begins to read",
    "91 20 04 00       ; LJMP  past the next line: the whole sector came in",
    "0A 4F 0B 45       ; MOVBI [PP].11,'E': the controller gave up",
    "40 00             ; SINTR",
    "20 48             ; HLT",
)

# Reads a sector from an eight-bit controller at ports 60h to 64h (status, bit 7 busy; command; sector; nothing; data) into
# words: a request for each byte, two for each word. The parameter block holds what SECTOR's does.
DISK_READ = code(
    "51 30 60 00       ; MOVI  GC,60H",
    "11 30 64 00       ; MOVI  GA,64H: the data port",
    "23 8B 04          ; LPD   GB,[PP].4: where the bytes go",
    "63 83 08          ; MOV   BC,[PP].8: how many",
    "A0 00             ; WID   8,16",
    "D1 30 48 88       ; MOVI  CC,8848H: port to block, synchronised with the port; count ends at 0, EXT at 4",
    "EA BE 00 FC       ; JBT   [GC].0,7: here again while it is busy",
    "02 93 0A 02 CE 02 ; MOVB  [GC].2,[PP].10",
    "60 00             ; XFER",
    "0A 4E 01 52       ; MOVBI [GC].1,'R': it begins to read",
    "91 20 04 00       ; LJMP  past the next line: the whole sector came in",
    "0A 4F 0B 45       ; MOVBI [PP].11,'E': the controller gave up",
    "40 00             ; SINTR",
    "20 48             ; HLT",
)

# Writes a sector to the same controller out of words.
DISK_WRITE = code(
    "51 30 60 00       ; MOVI  GC,60H",
    "03 8B 04          ; LPD   GA,[PP].4: where the bytes are",
    "31 30 64 00       ; MOVI  GB,64H: the data port",
    "63 83 08          ; MOV   BC,[PP].8: how many",
    "C0 00             ; WID   16,8",
    "D1 30 48 50       ; MOVI  CC,5048H: block to port, synchronised with the port; count ends at 0, EXT at 4",
    "EA BE 00 FC       ; JBT   [GC].0,7: here again while it is busy",
    "02 93 0A 02 CE 02 ; MOVB  [GC].2,[PP].10",
    "60 00             ; XFER",
    "0A 4E 01 57       ; MOVBI [GC].1,'W': it begins to write",
    "91 20 04 00       ; LJMP  past the next line: the whole sector went out",
    "0A 4F 0B 45       ; MOVBI [PP].11,'E': the controller gave up",
    "40 00             ; SINTR",
    "20 48             ; HLT",
)

# Reads from a card's port 64h in I/O space into words, and writes words to its port 66h: a request for each byte.
CARD_READ = code(
    "11 30 64 00 ; MOVI GA,64H: the port",
    "23 8B 04    ; LPD  GB,[PP].4: where the bytes go",
    "63 83 08    ; MOV  BC,[PP].8: how many",
    "D1 30 08 88 ; MOVI CC,8808H: port to block, synchronised with the port; count ends at 0",
    "60 00       ; XFER",
    "A0 00       ; WID  8,16",
    "20 48       ; HLT",
)
CARD_WRITE = code(
    "03 8B 04    ; LPD  GA,[PP].4: where the bytes are",
    "31 30 66 00 ; MOVI GB,66H: the port",
    "63 83 08    ; MOV  BC,[PP].8: how many",
    "D1 30 08 50 ; MOVI CC,5008H: block to port, synchronised with the port; count ends at 0",
    "60 00       ; XFER",
    "C0 00       ; WID  16,8",
    "20 48       ; HLT",
)

# Two processors and a buffer of four bytes at C0h between them, with two semaphores at 30h: the first is 0 while it may be
# filled, the second while it may be emptied. One fills it twice from its ports at 60h on, the other empties it into its own.
FILL = code(
    "51 08 00 00 03 00 ;       LPDI  GC,0,3: 30h, the semaphores",
    "11 30 60 00       ;       MOVI  GA,60H: the ports",
    "D1 30 08 C0       ;       MOVI  CC,0C008H: both move on, from GA, count ends at 0",
    "B1 30 02 00       ;       MOVI  IX,2",
    "1A 96 00 FF FB    ; WAIT: TSL   [GC].0,0FFH,WAIT: until it may be filled",
    "31 08 00 00 0C 00 ;       LPDI  GB,0,0CH: C0h, the buffer",
    "71 30 04 00       ;       MOVI  BC,4",
    "60 00             ;       XFER",
    "A0 00             ;       WID   8,16",
    "0A 4E 01 00       ;       MOVBI [GC].1,0: now it may be emptied",
    "A0 3C             ;       DEC   IX",
    "A8 40 E4          ;       JNZ   IX,WAIT",
    "20 48             ;       HLT",
)
EMPTY = code(
    "51 08 00 00 03 00 ;       LPDI  GC,0,3: 30h, the semaphores",
    "31 30 60 00       ;       MOVI  GB,60H: the ports",
    "D1 30 08 C0       ;       MOVI  CC,0C008H: both move on, from GA, count ends at 0",
    "B1 30 02 00       ;       MOVI  IX,2",
    "1A 96 01 FF FB    ; WAIT: TSL   [GC].1,0FFH,WAIT: until it may be emptied",
    "11 08 00 00 0C 00 ;       LPDI  GA,0,0CH: C0h, the buffer",
    "71 30 04 00       ;       MOVI  BC,4",
    "60 00             ;       XFER",
    "C0 00             ;       WID   16,8",
    "0A 4E 00 00       ;       MOVBI [GC].0,0: now it may be filled",
    "A0 3C             ;       DEC   IX",
    "A8 40 E4          ;       JNZ   IX,WAIT",
    "20 48             ;       HLT",
)

# Copies text up to a full stop: ends by match at offset 4, by count at offset 0.
MATCH = code(
    "11 08 00 00 08 00 ; LPDI GA,0,8: 80h",
    "31 08 00 00 0A 00 ; LPDI GB,0,0AH: A0h",
    "71 30 10 00       ; MOVI BC,16",
    "F1 30 2E FF       ; MOVI MC,0FF2EH",
    "D1 30 0A C0       ; MOVI CC,0C00AH: both move on, count ends at 0, match at 4",
    "80 00             ; WID  8,8",
    "60 00             ; XFER",
    "00 00             ; NOP",
    "0A 4F 0E 4E       ; MOVBI [PP].14,'N': the count ran out",
    "0A 4F 0F 59       ; MOVBI [PP].15,'Y': the full stop was found, or both",
    "20 48             ; HLT",
)

# Searches words for a full stop and stores them as bytes: ends by match at offset 4, and leaves BC in the parameter block.
LEFTOVER = code(
    "11 08 00 00 08 00 ; LPDI GA,0,8: 80h",
    "31 08 00 00 0A 00 ; LPDI GB,0,0AH: A0h",
    "71 30 10 00       ; MOVI BC,16",
    "F1 30 2E FF       ; MOVI MC,0FF2EH",
    "D1 30 0A C0       ; MOVI CC,0C00AH: both move on, count ends at 0, match at 4",
    "60 00             ; XFER",
    "C0 00             ; WID  16,8",
    "0A 4F 0E 4E       ; MOVBI [PP].14,'N': the count ran out",
    "63 87 04          ; MOV  [PP].4,BC: how much was not fetched",
    "20 48             ; HLT",
)

# Translates four bytes through a table.
TRANSLATE = code(
    "11 08 00 00 08 00 ; LPDI GA,0,8: 80h",
    "31 08 00 00 09 00 ; LPDI GB,0,9: 90h",
    "51 08 00 00 0A 00 ; LPDI GC,0,0AH: A0h",
    "71 30 04 00       ; MOVI BC,4",
    "D1 30 08 E0       ; MOVI CC,0E008H",
    "60 00             ; XFER",
    "80 00             ; WID  8,8",
    "20 48             ; HLT",
)

# Waits for DRQ; EXT ends it at offset 4.
EXTERNAL = code(
    "11 08 00 00 08 00 ; LPDI GA,0,8: 80h",
    "31 30 00 00       ; MOVI GB,0: I/O",
    "71 30 04 00       ; MOVI BC,4",
    "D1 30 48 C8       ; MOVI CC,0C848H: wait for the source's DRQ; count ends at 0, EXT at 4",
    "60 00             ; XFER",
    "80 00             ; WID  8,8",
    "91 20 04 00       ; LJMP past the next line",
    "0A 4F 0F 45       ; MOVBI [PP].15,'E': ended by EXT",
    "20 48             ; HLT",
)


def transfer(cc, widths):
    """A transfer with this CC word, both pointers at 0 of system space."""
    return bytes([0xD1, 0x30]) + word(cc) + code("60 00") + widths + code("20 48")


def disk(program, buffer):
    """A transfer of five bytes with the controller, between its data port and this buffer at C0h."""
    return started(0x100, program, (0xC0, buffer), control=INTERRUPTS,
                   parameters=doubleword(0xC0) + word(5) + bytes([7, 0x2E]))


def card(read, written, size):
    """A card in both directions: channel 1 reads so many bytes from it to C0h, channel 2 writes as many from E0h."""
    second = (8, bytes([START_SYSTEM, 0]) + doubleword(0x20))
    block = (0x20, doubleword(0x80) + doubleword(0xE0) + word(size))
    return started(0x100, CARD_READ, second, block, (0x80, CARD_WRITE), (0xC0, read), (0xE0, written),
                   parameters=doubleword(0xC0) + word(size))


def pair():
    """Two processors, the second one's control block at 20h, its parameter block at 28h and its program at 80h."""
    second = (0x20, bytes([START_SYSTEM, 0]) + doubleword(0x28))
    return started(0x100, FILL, second, (0x28, doubleword(0x80)), (0x30, bytes([0x00, 0xFF])), (0x80, EMPTY))


WID_8_8, WID_16_16 = code("80 00"), code("E0 00")


def copying(length, source, destination, size):
    """The copy on so many bytes that count up from 1."""
    parameters = word(size) + doubleword(source) + doubleword(destination)
    return started(length, COPY, (source, bytes(range(1, size + 1))), parameters=parameters)


IMAGES = {
    "first": started(0x46, code("F1 30 21 43 ; MOVI MC,4321H", "20 48       ; HLT")),
    "copy-even": copying(0x100, 0x90, 0xC0, 21),
    "copy-odd": copying(0x100, 0x91, 0xC1, 21),
    "copy-mixed": copying(0x100, 0x90, 0xC1, 21),
    "save": started(0x80, LOAD + SAVE, parameters=bytes([0xEE] * 17)),
    "sector": started(0x100, SECTOR, (0xC0, bytes([0xEE] * 16)), control=INTERRUPTS,
                      parameters=doubleword(0xC0) + word(16) + bytes([7, 0x2E])),
    "disk-read": disk(DISK_READ, bytes([0xEE] * 6)),
    "disk-write": disk(DISK_WRITE, b"sector"),
    "card": card(bytes([0xEE] * 4), b"data", 3),
    "pair": pair(),
    "match": started(0x100, MATCH, (0x80, b"end. not this...")),
    "leftover": started(0x100, LEFTOVER, (0x80, b"stop. not this..")),
    "translate": started(0x100, TRANSLATE, (0x80, bytes([3, 1, 2, 0])), (0xA0, b"ZYXW")),
    "external": started(0x100, EXTERNAL, (0x80, b"data")),
    "nops": image(0x14, (0, block(START_IO)), (PB, word(0xF0))),
    "halt": image(8, (0, bytes([HALT, 0xFF]))),
    "refused-1-waits": started(0x80, transfer(0x0800, WID_8_8)),
    "refused-2-attention": image(8, (0, block(START_SYSTEM))),
    "refused-2-step": started(0x80, code("11 08 00 00 08 00", "00 E8", "20 48")),
    "refused-3-code": started(0x80, code("00 00", "20 00")),
    "refused-4-cc": started(0x80, code("C0 38", "20 48")),
    "refused-5-syn": started(0x80, transfer(0x1800, WID_8_8)),
    "refused-5-wide": started(0x80, transfer(0x2000, WID_16_16)),
    "refused-6-command": image(0x20, (0, block(2))),
    "refused-7-resume": image(0x20, (0, block(RESUME))),
    "refused-9-suspend": image(0x20, (0, block(SUSPEND))),
}


# I/O memory for the bench tool: with the disk controller's ports, of which the data port reads 5Ah, and with those that
# the first of two processors reads.
PORTS = {"disk": image(0x100, (0x64, bytes([0x5A]))), "pair": image(0x100, (0x60, b"ANALYSER"))}


def record(kind, address, data):
    """A record of a PROM file (Intel hexadecimal): length, address, type, data, and what makes the sum 0."""
    body = bytes([len(data)]) + address.to_bytes(2, "big") + bytes([kind]) + data
    return ":" + (body + bytes([-sum(body) % 256])).hex().upper() + "\n"


def prom(*parts):
    """A PROM file with these (address, bytes), each behind its segment, and the end record."""
    lines = [record(2, 0, (at // 65536 * 4096).to_bytes(2, "big")) + record(0, at % 65536, data) for at, data in parts]
    return "".join(lines) + record(1, 0, b"")


# A board: SYSBUS says 16 bits, SOC sets bit 1, and the configuration block at FFFE0h names the control block at 400h.
BOARD = prom(
    (0x400, bytes([START_SYSTEM, 0xFF]) + doubleword(0x410)),
    (0x410, doubleword(0xFF000)),
    (0xFF000, code("F1 30 21 43 ; MOVI MC,4321H", "20 48       ; HLT")),
    (0xFFFE0, bytes([0x02, 0x00]) + doubleword(0x400)),
    (0xFFFF6, bytes([0x01])),
    (0xFFFF8, doubleword(0xFFFE0)),
)


# The copy from odd to odd as two PROMs, one with its even bytes and one with its odd ones, as a board with two sockets has it.
PAIR = {half: prom(*((at, IMAGES["copy-odd"][first::2][at:at + 16]) for at in range(0, len(IMAGES["copy-odd"]) // 2, 16)))
        for first, half in enumerate(("even", "odd"))}


def main():
    """Writes every image."""
    folder = Path(sys.argv[1] if len(sys.argv) > 1 else Path(__file__).parent)
    for name, data in IMAGES.items():
        (folder / (name + ".bin")).write_bytes(data)
    for name, data in PORTS.items():
        (folder / (name + ".ports")).write_bytes(data)
    (folder / "board.hex").write_text(BOARD)
    for half, text in PAIR.items():
        (folder / f"{half}.prom").write_text(text)


if __name__ == "__main__":
    main()
