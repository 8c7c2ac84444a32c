# Writes the damaged files into the folder named: each is right but for one damage, which its name tells.
import sys

folder = sys.argv[1]


def record(kind, address, data=b"", length=None, sum_off=0):
    head = bytes([len(data) if length is None else length, address >> 8, address & 0xFF, kind])
    body = head + data
    return ":" + (body + bytes([(sum_off - sum(body)) % 256])).hex().upper()


def write(name, *lines, end="\n", text=None):
    text = "".join(line + end for line in lines) if text is None else text
    with open(folder + "/" + name + ".hex", "wb") as file:
        file.write(text.encode("latin-1"))


A = record(0, 0x1000, b"sixteen in block")
B = record(0, 0x1010, b"and sixteen more")
C = record(0, 0x1020, b"the third sixtee")
END = record(1, 0)
FLASH = record(4, 0, bytes([0x00, 0x00]))
EEPROM = record(4, 0, bytes([0x00, 0xF0]))
LINEAR = record(4, 0, bytes([0xFF, 0xFF]))

# Cells given twice: the sixth cell of A is the letter "e".
write("twice-same-value", A, record(0, 0x1005, b"e"), END)
write("twice-other-value", A, record(0, 0x1005, b"X"), END)
write("twice-same-line", A, A, END)
write("twice-in-eeprom", EEPROM, record(0, 0x26, bytes([5, 10])), FLASH, EEPROM, record(0, 0x27, bytes([11])), END)
# The end record.
write("no-end", A, B)
write("data-behind-end", A, END, B)
write("bad-sum-behind-end", A, END, record(0, 0x1010, b"and sixteen more", sum_off=1))
write("empty-line-behind-end", A, END, "")
write("comment-behind-end", A, END, "; made by hand")
write("second-end", A, END, END)
write("control-z-behind-end", text=A + "\r\n" + END + "\r\n\x1a")
write("empty", text="")
# Sum, digits, lengths.
write("bad-sum", A, record(0, 0x1010, b"and sixteen more", sum_off=1), END)
write("bad-sum-at-end", A, record(1, 0, sum_off=1))
write("bad-data-digit", A, B.replace("61", "62", 1), END)
write("sum-digit-missing", A, B[:-1], END)
write("bad-digit", A, B[:10] + "G" + B[11:], END)
write("blank-as-digit", A, B[:1] + " " + B[2:], END)
write("no-colon", A, B[1:], END)
write("odd-digits", A, B[:12] + B[13:], END)
write("length-too-large", A, record(0, 0x1010, b"and sixteen more", length=17), END)
write("length-too-small", A, record(0, 0x1010, b"and sixteen more", length=15), END)
write("cut", text=A + "\n" + B[:21])
# Lines.
write("empty-line", A, "", B, END)
write("blanks-at-line-end", A, B + "  ", END)
write("blank-before-colon", A, " " + B, END)
write("lone-cr", A, B, END, end="\r")
write("last-lone-cr", text=A + "\r\n" + END + "\r")
write("two-records-in-a-line", A + B, END)
write("comment", "; made by hand", A, END)
write("byte-order-mark", text="\xef\xbb\xbf" + A + "\n" + END + "\n")
# Records of 01 and 04 of another length, and other types.
write("end-with-data", A, record(1, 0, b"x"))
write("upper-one-byte", record(4, 0, bytes([0x00])), A, END)
write("upper-three-bytes", record(4, 0, bytes([0x00, 0x00, 0x00])), A, END)
write("upper-no-bytes", record(4, 0), A, END)
write("type-02", record(2, 0, bytes([0x00, 0x00])), A, END)
write("type-03", A, record(3, 0, bytes([0x00, 0x00, 0x10, 0x00])), END)
write("type-05", A, record(5, 0, bytes([0x00, 0x00, 0x10, 0x00])), END)
write("type-06", A, record(6, 0, bytes([0x00, 0x00])), END)
# Areas.
write("below-flash", record(0, 0x0FF8, b"sixteen in block"), END)
write("across-flash-end", record(0, 0xFFF8, b"sixteen in block"), END)
write("across-eeprom-end", EEPROM, record(0, 0x03F8, b"eightnine"), END)
write("past-the-top", LINEAR, record(0, 0xFFF8, b"sixteen in block"), END)
# What no sum of a record can tell: a line lost, two bytes changed for one another. Every reader takes these.
write("line-lost", A, C, END)
write("bytes-swapped", A, B.replace("616E", "6E61"), END)
