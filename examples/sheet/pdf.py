"""A PDF of one page: numbered objects, streams, and the table of where they stand."""

import zlib


def name(text):
    """A name; those used here need no escape."""
    return "/" + text


class Pdf:
    def __init__(self):
        self._objects = []

    def add(self, body):
        """An object of that text; its reference."""
        self._objects.append(body.encode("latin-1") if isinstance(body, str) else body)
        return f"{len(self._objects)} 0 R"

    def stream(self, data, entries=""):
        """A stream, deflated."""
        packed = zlib.compress(data, 9)
        head = f"<< {entries} /Filter /FlateDecode /Length {len(packed)} >>\nstream\n"
        return self.add(head.encode("latin-1") + packed + b"\nendstream")

    def page(self, fonts, content, width, height):
        """The whole file, of one page with these fonts: names to references."""
        drawn = self.stream(content)
        tree = f"{len(self._objects) + 2} 0 R"
        named = " ".join(f"{name(key)} {reference}" for key, reference in fonts.items())
        page = self.add(
            f"<< /Type /Page /Parent {tree} /MediaBox [0 0 {width} {height}] /Contents {drawn} "
            f"/Resources << /Font << {named} >> >> >>"
        )
        self.add(f"<< /Type /Pages /Kids [{page}] /Count 1 >>")
        return self._file(self.add(f"<< /Type /Catalog /Pages {tree} >>"))

    def _file(self, root):
        out = bytearray(b"%PDF-1.5\n%\xe2\xe3\xcf\xd3\n")
        places = []
        for number, body in enumerate(self._objects, 1):
            places.append(len(out))
            out += b"%d 0 obj\n" % number + body + b"\nendobj\n"
        start = len(out)
        out += b"xref\n0 %d\n0000000000 65535 f \n" % (len(places) + 1)
        for place in places:
            out += b"%010d 00000 n \n" % place
        out += f"trailer\n<< /Size {len(places) + 1} /Root {root} >>\nstartxref\n{start}\n%%EOF\n".encode()
        return bytes(out)
