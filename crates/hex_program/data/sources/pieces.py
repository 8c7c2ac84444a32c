# Python intelhex writes one image in four ways: short records, long ones, CR LF, and with a start address.
import sys
from intelhex import IntelHex

folder = sys.argv[1]
image = IntelHex()
image.puts(0x1000, bytes(i * 7 % 256 for i in range(300)))
image.puts(0x103E + 0x200, b"over the rim")
image.puts(0xFFF9, b"the end")
image.puts(0xF00026, bytes([5, 10]))
image.puts(0xF003FD, b"eep")
image.write_hex_file(folder + "/intelhex-8.hex", byte_count=8)
image.write_hex_file(folder + "/intelhex-255.hex", byte_count=255)
image.write_hex_file(folder + "/intelhex-crlf.hex", byte_count=13, eolstyle="CRLF")
image.start_addr = {"EIP": 0x1000}
image.write_hex_file(folder + "/intelhex-start.hex", byte_count=32)
