#!/usr/bin/env python3
"""Respells this repository's own definitions and lemmas as today's Rattle spells them: words in snake case.

Run once, at the top, right after the toolchain's port.py. It goes by the list below, whole names only, through specs/,
proofs/ and, in src/, the lines of clauses; no function of src/, no string, input, output or must-fail edit is touched.
"""
import os
import re
import sys

# Names that the rule would not turn so: two that would fall together with others, two with capitals of their own, and
# three that go with class_c and class_f.
OTHERS = {
    "inAppendixA": "is_in_appendix_a",
    "asLongAsTable": "is_as_long_as_table",
    "Fetch-is-none": "fetch_is_none",
    "KeepsDF": "KeepsDf",
    "class3": "class_3",
    "class6": "class_6",
    "class7": "class_7",
}

NAMES = """
accessIn advanced-moved all-pieces alone-fits also-more altersDF and-bits appendixA as-long-as-table atDigits
bit-back by-dma by-interrupt by-operand byteGroups byteGroupsIn cardIn classC classF classI comesNext countsByte
countsInstruction current-shown cut-size cyclesOf decodes-to delayIn df-at df-execute df-second digitN digitOf
endedBy execute-interrupts execute-kept execute-left executeAccess fetch-left first-left firstShow fixedBytes
going-all going-full grew-full grew-room group-fits group-front group-most group-rest group-some group-within
groupAt groupBy groupSize groups-more groupsFrom hexDigit highDigit idleRecord in-appendix-a instruction-length
instructionsIn interrupts-at interrupts-execute interrupts-second joined-single joinedOf keyIn lampIn leftAfter
leftBit leftIn lengthsAt lessD lessM line-at-fits line-fits lineAnswer lineBuffer lineText longBegun longEnded
lostIn lowDigit moved-left movedBy movedIn name-fits namedText notBelow old-x one-cycle oneMore opcode-at
opcode-execute opcode-second operand-fits operandBytes operandIf operandText or-bits paced-at paced-execute
paced-second parts-joined pastOperand portRecord rP rX ramBytes ramOf reads-as-long-as-table reads-in-appendix-a
recordOf registerOf registersAfter rest-is-none rest-left rightBit rowBytes second-kept secondAccess secondBy
secondExecuted served-left setD setHigh setIE setLow setOpcode setP setPair setQ setReg setX shortTarget
shorter-by-one show-back showCode showIn shown-left shown-none shownBy shownIn stateCode stepped-lawful
stepped-old-x steppedBy storeAfter take-and-rest takenIn this-size toldBy toldIn transferIn transferOf twoMore
whole-fits whole-line whole-size withInstruction xor-bits
""".split()

WORD = re.compile(r"(?<![\w'.◌-])[A-Za-z][\w']*(?:-[A-Za-z]\w*)*|(?<=[.(])[A-Za-z][\w']*(?:-[A-Za-z]\w*)*")


def snake(name):
    if "-" in name:
        return name.replace("-", "_")
    return re.sub(r"(?<=[a-z0-9])(?=[A-Z])", "_", name).lower()


TURNED = OTHERS | {name: snake(name) for name in NAMES}


def turn(text):
    return WORD.sub(lambda m: TURNED.get(m[0], m[0]), text)


def clauses(text):
    """Turns the ghost lines of a source: imports, clauses and ghost members, which may go over several lines."""
    out, depth = [], 0
    for line in text.split("\n"):
        begins = re.match(r"\s*(ghost|requires|ensures)\b", line)
        if begins or depth:
            line = turn(line)
            bare = line if not begins or "fn " not in line else ""
            depth = max(0, depth + bare.count("{") - bare.count("}"))
        out.append(line)
    return "\n".join(out)


def main():
    for folder, dirs, files in os.walk("crates"):
        dirs[:] = sorted(d for d in dirs if d != "out")
        for name in sorted(files):
            path = os.path.join(folder, name)
            if not name.endswith((".antt", ".rt")):
                continue
            with open(path, encoding="utf-8") as f:
                old = f.read()
            new = turn(old) if name.endswith(".antt") else clauses(old)
            if new != old:
                with open(path, "w", encoding="utf-8") as f:
                    f.write(new)
                print(path)


if __name__ == "__main__":
    sys.exit(main())
