"""Sections that cost the most, at address 0x2000: each at most 65,536 bytes, or as many as its name says."""
import struct, sys, os
out = sys.argv[1]
def record(body):
    return struct.pack('<I', len(body)) + body
def cie(program, augmentation=b'', rest=b''):
    # version 1, code alignment 1, data alignment -8, column 16
    return record(struct.pack('<I', 0) + b'\x01' + augmentation + b'\x00' + b'\x01\x78\x10' + rest + program)
def fde(at, place_of_cie, first, size, program):
    back = at + 4 - place_of_cie
    return record(struct.pack('<I', back) + struct.pack('<QQ', first, size) + program)
def short_fde(at, place_of_cie, first, size, program=b''):
    # ULEB addresses, a byte each
    return record(struct.pack('<I', at + 4 - place_of_cie) + bytes([first, size]) + program)
def write(name, data, most=65536):
    assert len(data) <= most, (name, len(data))
    with open(os.path.join(out, name), 'wb') as f:
        f.write(data)
BASE = b'\x0c\x07\x08\x90\x01'          # def_cfa 7 8, offset 16 1
def pair(initial, own):
    c = cie(initial)
    return c + fde(len(c), 0, 0x1000, 0x1000, own)
# 1: 32,700 nops, 32,700 restores
write('restores', pair(BASE + bytes(32700), b'\xc6' * 32700))
# 2: remembered states nested to eight, a restore in each
turn = (b'\x0a\xc6' * 8) + (b'\x0b\xc6' * 8)
write('restores_nested', pair(BASE + bytes(32700), turn * (32700 // len(turn))))
# 3: remembering and restoring alone
write('remembers', pair(BASE, (b'\x0a' * 8 + b'\x0b' * 8) * 4000))
write('remembers_deep', pair(BASE, b'\x0a' * 7 + b'\x0a\x0b' * 32600))
# 4: as many FDEs as fit, all of one address
c = cie(b'', b'zR', b'\x01\x01')         # R: ULEB
def many(first, size):
    data = c
    i = 0
    while len(data) + 11 <= 65536:
        f, s = first(i), size(i)
        data += record(struct.pack('<I', len(data) + 4) + f + s + b'\x00')
        i += 1
    return data
def uleb(n):
    o = b''
    while True:
        b = n & 127
        n >>= 7
        if n:
            o += bytes([b | 128])
        else:
            return o + bytes([b])
write('one_address', many(lambda i: uleb(16), lambda i: uleb(16)))
write('empty_ranges', many(lambda i: uleb(16), lambda i: uleb(0)))
def fill(pairs):
    data, i = c, 0
    while True:
        f, s = pairs(i)
        r = record(struct.pack('<I', len(data) + 4) + uleb(f) + uleb(s) + b'\x00')
        if len(data) + len(r) > 65536:
            return data
        data += r
        i += 1
write('ascending', fill(lambda i: (16 * i, 16)))
write('descending', fill(lambda i: (200000 - 16 * i, 16)))
write('nested_ranges', fill(lambda i: (i, 100000)))
write('organ_pipe', fill(lambda i: (16 * i if i < 2700 else 16 * (5400 - i) + 8, 8)))
# 5: as many CIEs as fit, each FDE leading to the first, middle and last
data, cies = b'', []
while len(data) < 36000:
    cies.append(len(data))
    data += cie(b'', b'zR', b'\x01\x01')
i = 0
while True:
    r = record(struct.pack('<I', len(data) + 4 - cies[(i * 7919) % len(cies)]) + uleb(16 * i) + uleb(16) + b'\x00')
    if len(data) + len(r) > 65536:
        break
    data += r
    i += 1
write('many_cies', data)
data = b''
while True:
    r = cie(b'', b'', b'')
    if len(data) + len(r) > 65536:
        break
    data += r
write('cies_alone', data)
# 6: long LEB128 numbers: one of 65,000 bytes, and many of 9
write('long_leb', pair(BASE, b'\x0e' + b'\x80' * 65000 + b'\x00'))
write('leb_of_nine', pair(BASE, (b'\x0e' + b'\x80' * 8 + b'\x01') * 6500))
# 7: a text of letters
write('long_text', record(struct.pack('<I', 0) + b'\x01' + b'z' + b'LPRS' + b'x' * 65000 + b'\x00' + b'\x01\x78\x10'))
# 8: one operation after another
write('offsets', pair(BASE, b'\x86\x02' * 32700))
write('nops', pair(BASE, bytes(65400)))
write('advances', pair(BASE, b'\x41' * 65400))
write('advances1', pair(BASE, b'\x02\x01' * 32700))
write('def_cfas', pair(BASE, b'\x0c\x07\x08' * 21800))
write('registers', pair(BASE, b'\x09\x06\x03' * 21800))
write('restores_extended', pair(BASE, b'\x06\x06' * 32700))
# 9: a long CIE and as many short FDEs: a row table needs the row that the CIE leaves for each
def long_cie(most):
    body = cie(BASE + bytes(most // 2), b'zR', b'\x01\x01')
    parts, size, i = [body], len(body), 0
    while True:
        r = record(struct.pack('<I', size + 4) + uleb(16 * i) + uleb(16) + b'\x00')
        if size + len(r) > most:
            return b''.join(parts)
        parts.append(r)
        size += len(r)
        i += 1
write('long_cie', long_cie(65532))
write('long_cie_1M', long_cie(1 << 20), 1 << 20)
# 10: FDEs that share addresses, 16 MB of them
def short_fdes(most, pairs):
    parts, size, i = [c], len(c), 0
    while True:
        f, s = pairs(i)
        r = record(struct.pack('<I', size + 4) + uleb(f) + uleb(s) + b'\x00')
        if size + len(r) > most:
            return b''.join(parts)
        parts.append(r)
        size += len(r)
        i += 1
M16 = 16 << 20
write('one_address_16M', short_fdes(M16, lambda i: (16, 16)), M16)
write('one_pair_16M', short_fdes(M16, lambda i: (16 * max(i, 1), 16)), M16)
write('nested_16M', short_fdes(M16, lambda i: (i, 1 << 40)), M16)
write('nested_back_16M', short_fdes(M16, lambda i: ((1 << 22) - i, 2 * i + 1)), M16)
write('apart_16M', short_fdes(M16, lambda i: (16 * i, 16)), M16)
