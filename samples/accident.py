#!/usr/bin/env python3
"""Writes the records of the accident to standard output: 65,535 short jobs use up the tickets 0 to 65,534,
then a repair opens with ticket 65,535 and a part return with ticket 0, both at fault log (0) and parts store (1)."""
import struct
import sys

OPEN, ASK, CONFIRM, CLOSE = 1, 2, 3, 4
FAULT_LOG, PARTS_STORE, CREW_PLAN = 0, 1, 2


def record(kind, database, value):
    return struct.pack("<BBH", kind, database, value)


out = bytearray()
for ticket in range(65535):
    out += record(OPEN, 0, 1 << CREW_PLAN)
    out += record(ASK, CREW_PLAN, ticket) + record(CONFIRM, CREW_PLAN, ticket)
    out += record(CLOSE, 0, ticket)

both = 1 << FAULT_LOG | 1 << PARTS_STORE
repair, part_return = 65535, 0
out += record(OPEN, 0, both)
out += record(OPEN, 0, both)
out += record(ASK, FAULT_LOG, part_return)
out += record(ASK, FAULT_LOG, repair)
out += record(ASK, PARTS_STORE, part_return)
out += record(CONFIRM, FAULT_LOG, repair)
out += record(ASK, PARTS_STORE, repair)
out += record(CONFIRM, PARTS_STORE, repair)
out += record(CONFIRM, FAULT_LOG, part_return)
out += record(CONFIRM, PARTS_STORE, part_return)
out += record(CLOSE, 0, part_return)
out += record(CLOSE, 0, repair)
sys.stdout.buffer.write(out)
