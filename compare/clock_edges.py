"""Writes what the program clock_edges must write, with Python's own calendar, without the bench's code.

    python3 compare/clock_edges.py > crates/clock_edges/stdout

Day 0 of the modified Julian days is 1858-11-17.
"""
from datetime import datetime, timedelta

ZERO = datetime(1858, 11, 17)
FIRST, LAST = 15079, 88127


def read(word2, word3, word4):
    bits = (word2 & 3) << 32 | word3 << 16 | word4
    day, hour, minute = bits >> 17, bits >> 12 & 31, bits >> 6 & 63
    sign, half = bits >> 5 & 1, bits & 31
    if not FIRST <= day <= LAST or hour > 23 or minute > 59 or half > 24:
        return "nothing"
    return f"{day} {hour} {minute} {sign if half else 0} {half}"


def write(pi, tp, pty, day, hour, minute, negative, half):
    if not FIRST <= day <= LAST or hour > 23 or minute > 59 or half > 24 or pty > 31:
        return "10"
    sign = 1 if negative and half else 0
    bits = day << 17 | hour << 12 | minute << 6 | sign << 5 | half
    word2 = 4 << 12 | tp << 10 | pty << 5 | bits >> 32
    return f"0 {pi} {word2} {bits >> 16 & 0xFFFF} {bits & 0xFFFF}"


def date(day, hour, minute, negative, half):
    if not FIRST <= day <= LAST:
        return "10"
    away = timedelta(minutes=30 * half)
    local = ZERO + timedelta(days=day, hours=hour, minutes=minute) + (-away if negative else away)
    if not FIRST <= (local - ZERO).days <= LAST:
        return "10"
    return f"0 {local.year} {local.month} {local.day} {local.isoweekday()} {local.hour} {local.minute}"


for words in (
    (0x4000, 0x75CC, 0), (0x4000, 0x75CE, 0), (0x4002, 0xB07E, 0), (0x4002, 0xB080, 0),
    (0x4001, 0x6145, 0x7EEA), (0x4001, 0x6144, 0x18), (0x4001, 0x6144, 0x19), (0x4001, 0x6144, 0x20),
):
    print("read", read(*words))
for pty, clock in (
    (0, (15078, 0, 0, False, 0)), (0, (15079, 0, 0, False, 0)), (31, (88127, 23, 59, True, 24)),
    (31, (88128, 23, 59, True, 24)), (31, (88127, 23, 59, True, 25)), (32, (88127, 23, 59, True, 24)),
    (0, (45218, 0, 0, True, 0)),
):
    print("write", write(0x1001, 1, pty, *clock))
print("date 10")
for clock in (
    (45218, 23, 59, True, 10), (15078, 0, 0, False, 48), (15079, 0, 0, False, 0), (15079, 0, 0, True, 1),
    (15079, 0, 30, True, 1), (88127, 0, 0, False, 0), (88127, 23, 29, False, 1), (88127, 23, 30, False, 1),
    (88128, 0, 0, True, 48), (51603, 12, 0, False, 24), (45218, 255, 255, False, 255),
):
    print("date", date(*clock))
