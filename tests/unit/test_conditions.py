"""Which lines conditions leave out for sure: those of `.if` with a number, and of `.ifdef` with a name that nothing defines."""
import rows
from work65.frontend.conditions import Conditions

# A line that is left out for sure has a `-` before it, any other a `+`. KNOWN is a name that something may define, and `p` a parameter.
SOURCES = {
    "nothing": "+nop",
    "a true number": "+.if 1|+nop|+.else|-nop|+.endif|+nop",
    "a false number": "+.if 0|-nop|+.else|+nop|+.endif|+nop",
    "a number in hexadecimal": "+.if $00|-nop|+.endif|+nop",
    "an expression isn't computed": "+.if 0+0|+nop|+.else|+nop|+.endif",
    "a name": "+.if KNOWN|+nop|+.else|+nop|+.endif",
    "a name that nothing defines": "+.ifdef OTHER|-nop|+.else|+nop|+.endif",
    "the same the other way round": "+.ifndef OTHER|+nop|+.else|-nop|+.endif",
    "a name that may be defined": "+.ifdef KNOWN|+nop|+.else|+nop|+.endif",
    "a parameter": "+.ifdef p|+nop|+.endif",
    "one in the other": "+.if 0|-.if 1|-nop|-.endif|-nop|+.endif|+nop",
    "one in the other that holds": "+.if 1|+.if 0|-nop|+.endif|+nop|+.endif",
    "after one that holds": "+.if 1|+nop|+.elseif 1|-nop|+.else|-nop|+.endif",
    "after one that doesn't": "+.if 0|-nop|+.elseif 1|+nop|+.else|+nop|+.endif",
    "others of cc65's": "+.ifconst 5|+nop|+.else|+nop|+.endif",
    "a label before it": "+l: .if 0|-nop|+.endif",
    "an end without a beginning": "+.endif|+.else|+nop",
}


def left_out(text):
    """The lines with the sign of each: a line that opens or closes a condition counts as those around it."""
    conditions, found = Conditions({"KNOWN"}), []
    for line in text.split("|"):
        before = conditions.is_dead
        statement = rows.statement(line[1:])
        conditions.step(statement, {"p"})
        is_edge = statement.head in (".if", ".ifdef", ".ifndef", ".ifconst", ".else", ".elseif", ".endif")
        is_dead = (before if statement.head.startswith(".if") else outer_of(conditions, statement)) if is_edge else conditions.is_dead
        found.append(("-" if is_dead else "+") + line[1:])
    return "|".join(found)


def outer_of(conditions, statement):
    """Tests whether the lines around a condition are skipped, at a line that continues or ends it."""
    return conditions.is_dead if statement.head == ".endif" else False in conditions.open[:-1]


class LeftOut(rows.Rows):
    """Lines that are left out."""

    def test_sources(self):
        for name, text in SOURCES.items():
            with self.subTest(name):
                self.assertEqual(left_out(text), text)
