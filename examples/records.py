"""A log in the making, for picture.py and pages.py: accesses and runs of lines as records of four bytes, which include/ppu.h describes."""


class Log(bytearray):
    def write(self, port, *data):
        for byte in data:
            self.extend((1, 0x20, port, byte))

    def read(self, port):
        self.extend((0, 0x20, port, 0))

    def run(self, lines):
        self.extend((2, lines >> 8, lines & 255, 0))

    def fill(self, address, data):
        """Through port 7, from this address on."""
        self.read(2)                            # the next write of port 6 is the first
        self.write(6, address >> 8, address & 255)
        self.write(7, *data)
