"""A picture that a script drew, and what is looked for in it."""
import xml.etree.ElementTree as xml

import fed

SVG = "{http://www.w3.org/2000/svg}"


class Picture:
    """A picture that is judged: its text is searched line by line."""

    def __init__(self, tally, name, text):
        self.tally, self.name, self.text = tally, name, text
        self.lines = text.split("\n")

    def check(self, is_right, fault):
        self.tally.count(self.name, None if is_right else fault)

    def times(self, text):
        return sum(text in line for line in self.lines)

    def has(self, text, times=1):
        """So many lines of the picture have the text."""
        self.check(self.times(text) == times, "%d lines have '%s', not %d" % (self.times(text), text, times))

    def is_file(self, path):
        """It is the picture that a file has."""
        self.check(self.text.encode() == fed.read(path), "it isn't " + path)

    def elements(self):
        """All elements; none where it is no XML."""
        try:
            found = list(xml.fromstring(self.text).iter())
        except xml.ParseError as error:
            self.check(False, "no XML: %s" % error)
            return []
        self.check(True, None)
        return found

    def in_frame(self, most):
        """All that has a place is in the frame, which is at most so wide."""
        found = self.elements()
        width, height = map(float, found[0].get("viewBox").split()[2:]) if found else (0, 0)

        def is_outside(one):
            left, top, across, down = (float(one.get(name, 0)) for name in ("x", "y", "width", "height"))
            x, y = left + float(one.get("cx", 0)), top + float(one.get("cy", 0))
            return x < 0 or y < 0 or x + across > width or y + down > height

        placed = [one for one in found if one.tag in (SVG + "text", SVG + "rect", SVG + "circle")]
        outside = [xml.tostring(one)[:100] for one in placed if is_outside(one)]
        self.check(placed and width <= most and not outside, "it is %g wide, and outside is %s" % (width, outside[:3]))
