#!/usr/bin/env python3
"""Writes the sample images and the log of bursts beside this file. samples/README.md says what stands in them and why."""
import pathlib

HERE = pathlib.Path(__file__).resolve().parent
SIZE = 1024  # as byte 0 says
DDR4_SIZE = 512


def crc16(data):
    crc = 0
    for byte in data:
        crc ^= byte << 8
        for _ in range(8):
            crc = (crc << 1 ^ 0x1021 if crc & 0x8000 else crc << 1) & 0xFFFF
    return crc


def module(row_times, date, serial, part, revision):
    """A 4800 MT/s UDIMM with tAA, tRCD, tRP, tRAS and tRC as told, in picoseconds, and with that label."""
    image = bytearray(SIZE)

    def number(offset, value):
        image[offset : offset + 2] = value.to_bytes(2, "little")

    image[0:8] = bytes([0x30, 0x10, 0x12, 0x02, 0x04, 0x00, 0x20, 0x62])
    image[234:236] = bytes([0x00, 0x22])
    number(20, 416)  # tCKmin
    number(22, 1010)  # tCKmax
    mask = sum(1 << (cl - 20) // 2 for cl in (22, 28, 30, 32, 36, 40, 42))
    image[24:29] = mask.to_bytes(5, "little")
    for k, time in enumerate(row_times):  # tAA tRCD tRP tRAS tRC
        number(30 + 2 * k, time)
    number(40, 30000)  # tWR
    for offset, time in ((42, 295), (44, 160), (46, 130)):
        number(offset, time)  # tRFC1 tRFC2 tRFCsb, in nanoseconds
    pairs = ((5000, 8), (5000, 8), (20000, 32), (10000, 16), (13333, 32), (10000, 16), (2500, 4), (7500, 12))
    for k, (time, clocks) in enumerate(pairs):  # tRRD_L tCCD_L tCCD_L_WR tCCD_L_WR2 tFAW tWTR_L tWTR_S tRTP
        number(70 + 3 * k, time)
        image[72 + 3 * k] = clocks
    number(510, crc16(image[:510]))
    # The makers are made up. Bit 7 of each of their bytes is a parity, which makes the count of ones odd.
    image[512:515] = bytes([0xE3, 0x2A, 7])
    image[515:517] = bytes.fromhex(date)  # year and week, two digits each
    image[517:521] = bytes.fromhex(serial)
    image[521:551] = part.encode("ascii").ljust(30)
    image[551:555] = bytes([revision, 0x64, 0xB3, 11])
    return bytes(image)


def ddr4():
    """A DDR4-2400 UDIMM: one rank of 8 Gb dies, eight bits wide, on a bus of 64 bits."""
    image = bytearray(DDR4_SIZE)

    def time(units, fine, picoseconds):
        image[units], image[fine] = -(-picoseconds // 125), picoseconds % -125 % 256  # the fine part takes away what is too much

    image[0:15] = bytes([0x23, 0x11, 0x0C, 0x02, 0x85, 0x21, 0x00, 0x08, 0x00, 0x60, 0x00, 0x03, 0x01, 0x03, 0x00])
    image[17] = 0  # units of 125 ps, and of 1 ps for the fine parts
    time(18, 125, 833)  # tCKmin
    time(19, 124, 1600)  # tCKmax
    image[20:24] = sum(1 << cl - 7 for cl in range(10, 19)).to_bytes(4, "little")
    for units, fine in ((24, 123), (25, 122), (26, 121)):
        time(units, fine, 13750)  # tAA tRCD tRP
    tras, trc = 32000 // 125, 45750 // 125
    image[27:30] = bytes([trc // 256 * 16 + tras // 256, tras % 256, trc % 256])
    for offset, units in ((30, 2800), (32, 2080), (34, 1280)):
        image[offset : offset + 2] = units.to_bytes(2, "little")  # tRFC1 tRFC2 tRFC4
    image[37] = 168  # tFAW
    for units, fine, picoseconds in ((38, 119, 3300), (39, 118, 4900), (40, 117, 5000)):
        time(units, fine, picoseconds)  # tRRD_S tRRD_L tCCD_L
    image[42], image[44], image[45] = 120, 20, 60  # tWR tWTR_S tWTR_L
    image[128:132] = bytes([0x11, 0x11, 0x00, 0x01])  # height, thickness, card A, mirrored
    for block in (0, 128):
        image[block + 126 : block + 128] = crc16(image[block : block + 126]).to_bytes(2, "little")
    return bytes(image)


def xxd(offset, data):
    """A line of xxd."""
    groups = " ".join(data[k : k + 2].hex() for k in range(0, len(data), 2))
    text = "".join(chr(byte) if 32 <= byte < 127 else "." for byte in data)
    return f"{offset:08x}: {groups:39}  {text}\n"


image = module((16640, 16640, 16640, 32000, 48640), "2614", "0A1B2C3D", "RCORD-U16 4800", 18)
arrived = [(offset, image[offset : offset + 16]) for offset in range(0, SIZE, 16)]
arrived.insert(2, arrived[1])  # the burst of bytes 16 to 31 comes twice
(HERE / "ddr5-4800.bin").write_bytes(image)
(HERE / "ddr5-4800b.bin").write_bytes(module((16000, 16000, 16000, 32000, 48000), "2631", "0A1B2C9F", "RCORD-U16 4800B", 19))
(HERE / "ddr5-4800-burst-twice.xxd").write_text("".join(xxd(offset, data) for offset, data in arrived))
(HERE / "ddr5-4800-burst-twice.bin").write_bytes(b"".join(data for _, data in arrived)[:SIZE])
(HERE / "ddr4-2400.bin").write_bytes(ddr4())
