"""Damaged texts: a text with one to three small faults, of the kinds below. The numbers come from a generator handed in."""

FIELDS = [b"-0", b"00", b"01", b"+1", b"-", b"", b" 1", b"1 ", b"0x1", b"1e3", b"1.0", b"-01", b"9223372036854775807", b"9223372036854775808",
          b"-9223372036854775808", b"-9223372036854775809", b"18446744073709551616", b"7ff8000000000000", b"7ff0000000000000", b"fff0000000000001",
          b"8000000000000000", b"0000000000000001", b"3FF0000000000000", b"3ff000000000000", b"3ff00000000000000", b"3ff000000000000g", b"\xb5"]
BYTES = b"\t\n\r -+0123456789abcdefgiknprtxABCDEF\x00\x7f\x80\xff"


def lines_of(text):
    return text.split(b"\n")[:-1] if text.endswith(b"\n") else text.split(b"\n")


def joined(lines):
    return b"".join(l + b"\n" for l in lines)


def flipped(r, t):
    k = r.below(len(t))
    return t[:k] + bytes([t[k] ^ (1 << r.below(8))]) + t[k + 1:]


def replaced(r, t):
    k = r.below(len(t))
    return t[:k] + bytes([r.pick(BYTES)]) + t[k + 1:]


def deleted(r, t):
    k = r.below(len(t))
    return t[:k] + t[k + 1:]


def inserted(r, t):
    k = r.below(len(t) + 1)
    return t[:k] + bytes([r.pick(BYTES)]) + t[k:]


def cut(r, t):
    return t[:r.below(len(t))]


def cut_in_front(r, t):
    return t[r.below(len(t)):]


def repeated(r, t):
    a = r.below(len(t))
    b = a + 1 + r.below(min(200, len(t) - a))
    return t[:b] + t[a:]


def exchanged(r, t):
    k = r.below(len(t) - 1)
    return t[:k] + t[k + 1:k + 2] + t[k:k + 1] + t[k + 2:]


def doubled(r, t):
    return t + t


def line_moved(r, t):
    ls = lines_of(t)
    l = ls.pop(r.below(len(ls)))
    ls.insert(r.below(len(ls) + 1), l)
    return joined(ls)


def line_repeated(r, t):
    ls = lines_of(t)
    k = r.below(len(ls))
    return joined(ls[:k] + [ls[k]] * (2 + r.below(3)) + ls[k + 1:])


def line_dropped(r, t):
    ls = lines_of(t)
    ls.pop(r.below(len(ls)))
    return joined(ls)


def lines_exchanged(r, t):
    ls = lines_of(t)
    i, j = r.below(len(ls)), r.below(len(ls))
    ls[i], ls[j] = ls[j], ls[i]
    return joined(ls)


def line_emptied(r, t):
    ls = lines_of(t)
    ls.insert(r.below(len(ls) + 1), b"")
    return joined(ls)


def field_changed(r, t):
    ls = lines_of(t)
    k = r.below(len(ls))
    f = ls[k].split(b"\t")
    f[r.below(len(f))] = r.pick(FIELDS)
    ls[k] = b"\t".join(f)
    return joined(ls)


def number_changed(r, t):
    ls = lines_of(t)
    k = r.below(len(ls))
    f = ls[k].split(b"\t")
    if len(f) > 1 and not f[0].startswith((b"f", b"p")):
        f[1 + r.below(len(f) - 1)] = b"%d" % r.pick([-1, 0, 1, 2, 3, 4, 5, 7, 64, 65, 128, 129, 4096, 4097, -4096, -4097, r.below(2000), 2**63 - 1, -2**63])
    elif len(f) > 1:
        f[1] = b"%016x" % r.pick([0, 2**63, 423 << 52, (423 << 52) - 1, 1053 << 52, (1053 << 52) + 1, 363 << 52, (363 << 52) - 1, 1054 << 52, (1054 << 52) + 1, r.next()])
    ls[k] = b"\t".join(f)
    return joined(ls)


def field_added(r, t):
    ls = lines_of(t)
    k = r.below(len(ls))
    ls[k] += b"\t" + r.pick([b"0", b"", b"1"])
    return joined(ls)


def tag_changed(r, t):
    ls = lines_of(t)
    k = r.below(len(ls))
    f = ls[k].split(b"\t")
    f[0] = r.pick([b"grid", b"diag", b"type", b"bands", b"addr", b"map", b"f1", b"f2", b"point", b"triplet", b"f3", b"Grid", b"triplets", b"", b"ma"])
    ls[k] = b"\t".join(f)
    return joined(ls)


def capitals(r, t):
    k = r.below(len(t))
    return t[:k] + t[k:k + 40].upper() + t[k + 40:]


def spaces(r, t):
    k = t.find(b"\t", r.below(len(t)))
    return t[:k] + b" " + t[k + 1:] if k >= 0 else t


def returns(r, t):
    return t.replace(b"\n", b"\r\n") if r.chance(0.3) else t[:-1] + b"\r\n"


def open_end(r, t):
    return t[:-1]


def padded(r, t):
    """To about the greatest length: more map lines, of which any number may follow the last one needed."""
    ls = lines_of(t)
    at = max([i for i, l in enumerate(ls) if l.startswith(b"map")] + [0]) + 1
    room = 16384 + r.between(-8, 8) - len(t)
    more = []
    while room >= 26:
        more.append(b"map\t" + b"1" * 15)
        room -= 20
    if room >= 6:
        more.append(b"map\t" + b"1" * (room - 5))
    return joined(ls[:at] + more + ls[at:])


KINDS = [flipped, replaced, deleted, inserted, cut, cut_in_front, repeated, exchanged, doubled, line_moved, line_repeated, line_dropped, lines_exchanged,
         line_emptied, field_changed, number_changed, field_added, tag_changed, capitals, spaces, returns, open_end, padded]


def damaged(r, text):
    """The kind, and the damaged text."""
    kind = r.pick(KINDS)
    t = kind(r, text) if len(text) > 2 else text
    for _ in range(r.pick([0, 0, 0, 1, 2])):
        if len(t) > 2:
            t = r.pick([flipped, replaced, deleted, number_changed, field_changed])(r, t)
    return kind.__name__, t
