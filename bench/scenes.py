"""Writes the scenes that the benches run into a folder."""
import sys
dir = sys.argv[1]
application = "A000000308000010000100"
prefix = "2.16.840.1.101.3.7."
login = "670D8108313233343536FFFF830180"
lines = ["get h " + prefix + "2.48.0", "get h " + prefix + "2.48.1", "login h " + login, "apdu h 00200080",
         "crypt h 08 9E 7C148200811000112233445566778899AABBCCDDEEFF", "get h " + prefix + "2.96.80",
         "apdu h 00CB3FFF055C035FC10204", "get h " + prefix + "2.1.1"]

def card(k):
    return ('[[card]]\nname = "c%d"\ncontact = "r%d"\nobjects = [\n  { tag = "5FC102", value = "3E00FE00" },\n'
            '  { tag = "5FC109", value = "01024142FE00" },\n'
            '  { tag = "7E", value = "4F0BA0000003080000100001005F2F024000" },\n]\n\n' % (k, k))

def script(k, reader, body):
    body = ["connect h %s shared" % reader, "select h " + application] + body
    return '[[script]]\nname = "s%d"\nlines = [\n%s]\n\n' % (k, "".join('  "%s",\n' % line for line in body))

def mixed(count):
    return "".join(card(k) for k in range(8)) + "".join(
        script(k, "r%d" % (k % 8), [lines[(k + j) % 8] for j in range(count)]) for k in range(64))

open(dir + "/whole", "w").write(mixed(62))
open(dir + "/half", "w").write(mixed(31))

# The same without cards, which is refused as soon as the document is read; and with a word too many in the last line, which is refused
# when all else is read.
open(dir + "/document", "w").write(mixed(62)[len("".join(card(k) for k in range(8))):])
open(dir + "/refused", "w").write(" more\",".join(mixed(62).rsplit("\",", 1)))

# 1,024 puts of 16,384 bytes, each in 65 parts.
admin = "admin h 08 101112131415161718191A1B1C1D1E1F"
def puts(total):
    sizes = [16384] * (total // 16384)
    shares = [sizes[k::64] for k in range(64)]
    return "".join(card(k) for k in range(8)) + "".join(
        script(k, "r%d" % (k % 8), [admin] + ["put h %s2.96.48 fill %d A5" % (prefix, n) for n in shares[k]]) for k in range(64))
open(dir + "/puts", "w").write(puts(16777216))
open(dir + "/puts.half", "w").write(puts(8388608))

# The most turns: after two lines of one turn each, 4,094 of 65 turns.
open(dir + "/turns", "w").write("".join(card(k).replace("]\n\n", '  { tag = "5FC105", size = 16384, fill = "C3" },\n]\n\n') for k in range(8))
    + script(0, "r0", 4094 * ["get h " + prefix + "2.1.1"]))

# The largest input: a card and scripts without lines, each with a name of its own until 8 MiB are full; cards; tags; a long line.
def filled(head, each, tail=""):
    text, size, k = [head], len(head) + len(tail), 0
    while True:
        part = each(k)
        if size + len(part) > 8 << 20:
            return "".join(text) + tail
        text.append(part); size += len(part); k += 1
open(dir + "/scripts", "w").write(filled(card(0), lambda k: '[[script]]\nname = "s%d"\n' % k))
open(dir + "/cards", "w").write(filled("", lambda k: '[[card]]\nname = "c%d"\ncontact = "r%d"\n' % (k, k)))
open(dir + "/tables", "w").write(filled(card(0), lambda k: "[other.k%d]\n" % k))
open(dir + "/lines", "w").write(filled(card(0) + '[[script]]\nname = "s"\nlines = [\n', lambda k: '"get h %s2.48.%d",\n' % (prefix, k), "]\n"))
open(dir + "/brackets", "w").write("[" * (8 << 20))

# The largest scene: 8 MiB of which every line is played.
def largest():
    head = card(0) + '[[script]]\nname = "s"\nlines = [\n"connect h r0 shared",\n"select h %s",\n"%s",\n' % (application, admin)
    line = '"put h %s2.96.48 hex %%s",\n' % prefix
    bytes = (((8 << 20) - len(head) - 2) // 4093 - len(line) + 2) // 2
    return head + 4093 * (line % (bytes * "A5")) + "]\n"
open(dir + "/largest", "w").write(largest())
