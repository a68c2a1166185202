"""The text of a line within calls, repeats and files, by docs/LANGUAGE.md: the marks in the order of the copy, and the last mark's line."""
import os
import tempfile

import rows
from work65.instrumenting.frames import Frames
from work65.instrumenting.marks import Mark, Sign
from work65.instrumenting.sources import Closure

SOURCES = {
    "main.s": [
        ".macro m p, q", ".local x", "x: lda #p", ".ifblank q", " inx ; p", ".else", " n q", ".endif", " .byte .paramcount", ".endmacro",
        ".macro n p", ".repeat 2, i", " .byte i+p, q", ".endrepeat", ".endmacro", " m 5", "k = 3", ".repeat k, i", ".repeat 2, j",
        " m i, {j, 1}", " .word i*j", ".endrepeat", ".endrepeat", '.include "part.inc"', " m (1,2)",
        ".macro o p", ".repeat 2, i", " .byte p", ".endrepeat", ".endmacro", " o i+1",
    ],
    "part.inc": [" lda #p ; i", " m 7"],
}  # fmt: skip
BOTH = "DEFINED 10|DEFINED 15"
TWICE = f"{BOTH}|REPEAT 18|TURN 18|TURN 18|REPEAT 19|TURN 19"
# Marks up to the one whose line is read: its sign, its line, and its file if that isn't main.s.
LINES = {
    "AT 16": " m 5",
    f"{BOTH}|CALL 16|LOCAL 2|AT 3": "x?1: lda #5",
    f"{BOTH}|CALL 16|LOCAL 2|AT 5": " inx ; p",
    f"{BOTH}|CALL 16|LOCAL 2|AT 9": " .byte 1",
    f"{BOTH}|CALL 16|LOCAL 2|BACK 16|AT 3": "x: lda #p",
    f"{BOTH}|CALL 16|BACK 16|CALL 25|LOCAL 2|AT 3": "x?2: lda #(1",
    f"{BOTH}|CALL 25|LOCAL 2|AT 7": " n 2)",
    f"{BOTH}|CALL 25|LOCAL 2|AT 9": " .byte 2",
    "REPEAT 18|AT 21": " .word *j",
    "REPEAT 18|TURN 18|AT 21": " .word 0*j",
    f"{TWICE}|AT 21": " .word 1*0",
    f"{TWICE}|TURN 19|AT 21": " .word 1*1",
    f"{TWICE}|OVER 22|AT 21": " .word 1*j",
    f"{TWICE}|AT 20": " m 1, {0, 1}",
    f"{TWICE}|CALL 20|LOCAL 2|AT 3": "x?1: lda #1",
    f"{TWICE}|CALL 20|LOCAL 2|AT 7": " n 0, 1",
    f"{TWICE}|CALL 20|LOCAL 2|CALL 7|REPEAT 12|TURN 12|AT 13": " .byte 0+0, q",
    f"{TWICE}|CALL 20|LOCAL 2|CALL 7|REPEAT 12|TURN 12|TURN 12|AT 13": " .byte 1+0, q",
    "DEFINED 30|CALL 31|REPEAT 27|TURN 27|TURN 27|AT 28": " .byte 1+1",
    f"{BOTH}|CALL 16|LOCAL 2|INCLUDE 24|AT 1 part.inc": " lda #p ; i",
    f"{TWICE}|INCLUDE 24|AT 1 part.inc": " lda #p ; i",
    f"{TWICE}|INCLUDE 24|CALL 2 part.inc|LOCAL 2|AT 3": "x?1: lda #7",
    f"{TWICE}|INCLUDE 24|CALL 2 part.inc|BACK 2 part.inc|INCLUDED 24|AT 21": " .word 1*0",
}
# Marks, and the frames that are open after them: each frame's sign, with the line below which its lines are listed.
OPEN = {
    "AT 16": "INCLUDE 0",
    f"{BOTH}|CALL 16": "INCLUDE 0, CALL 16",
    f"{BOTH}|CALL 16|CALL 7|REPEAT 12": "INCLUDE 0, CALL 16, CALL 16, REPEAT 16",
    f"{BOTH}|CALL 16|CALL 7|REPEAT 12|BACK 7": "INCLUDE 0, CALL 16",
    f"{BOTH}|CALL 16|CALL 7|REPEAT 12|BACK 16": "INCLUDE 0",
    f"{TWICE}": "INCLUDE 0, REPEAT 23, REPEAT 23",
    f"{TWICE}|OVER 22": "INCLUDE 0, REPEAT 23",
    f"{TWICE}|OVER 22|OVER 23": "INCLUDE 0",
    f"{TWICE}|INCLUDE 24": "INCLUDE 0, REPEAT 23, REPEAT 23, INCLUDE 0",
    f"{TWICE}|INCLUDE 24|CALL 2 part.inc": "INCLUDE 0, REPEAT 23, REPEAT 23, INCLUDE 0, CALL 2",
}


class Replayed(rows.Rows):
    """Marks that are followed."""

    def setUp(self):
        self.was = os.getcwd()
        self.folder = tempfile.TemporaryDirectory()
        os.chdir(self.folder.name)
        for name, lines in SOURCES.items():
            with open(name, "w", encoding="latin-1") as it:
                it.write("\n".join(lines) + "\n")

    def tearDown(self):
        os.chdir(self.was)
        self.folder.cleanup()

    def followed(self, text):
        """Follows all marks of a text but the last; returns the frames and that mark."""
        closure = Closure("main.s", [])
        frames, marks = Frames(closure), []
        for it in text.split("|"):
            sign, line, *file = it.split()
            marks.append(Mark(Sign[sign], closure.read(file[0] if file else "main.s"), int(line), False))
        for it in marks[:-1]:
            frames.follow(it, 0)
        return frames, marks[-1]

    def line(self, text):
        """Returns the line of the last mark."""
        frames, mark = self.followed(text)
        return frames.line(mark).text

    def opened(self, text):
        """Returns the frames that are open after the last mark."""
        frames, mark = self.followed(text)
        frames.follow(mark, 0)
        return ", ".join(f"{it.sign.name} {it.anchor}" for it in frames.open)

    def test_lines(self):
        self.rows(LINES, self.line)

    def test_open(self):
        self.rows(OPEN, self.opened)
