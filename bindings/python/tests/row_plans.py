# SPDX-License-Identifier: Apache-2.0
"""Plans of rows, carried out by the package alone."""
from hll_sketches import ArgumentError, ImageError, Sketch, fault_of, layout, union_of


class Refused(Exception):
    """A line is refused, with these words."""


class NoCall(Exception):
    """A line is refused for its text, or for sketches that are not there: no call is made of it."""


def with_words(answer):
    """The answer of a row with the words of its registers set where they are zero, as the package
    writes it; the program leaves them."""
    mark, _, digits = answer.partition(" ")
    if mark not in ("=", "+"):
        return answer
    return "= " + Sketch.from_bytes(bytes.fromhex(digits)).to_bytes().hex()


def run_line(words, sketches):
    """Carries out a line."""
    kind, *numbers = words
    if kind == "image":
        data = bytes.fromhex(numbers[0])
        reason = fault_of(data)
        if reason == "trailing":        # plans pass over bytes after an image, and the package rejects them
            data, reason = data[: layout.size_of(data)], None
        if reason is not None:
            raise Refused(f"image {reason}")
        sketches.append(data)
        return
    numbers = [int(number) for number in numbers]
    if kind == "new":
        sketches.append(Sketch(*numbers))
    elif kind == "union":
        count, lg_max_k, width = numbers
        taken = sketches[len(sketches) - count :]
        made = union_of(taken, lg_max_k, width)
        sketches[len(sketches) - count :] = [made]
    elif kind == "coupon":
        last = sketch_of(sketches[-1])
        last.add_coupon(*numbers)
        sketches[-1] = last
    else:
        sketches[-1] = sketch_of(sketches[-1]).fold(*numbers)


def sketch_of(source):
    return source if isinstance(source, Sketch) else Sketch.from_bytes(source)


def run(plan):
    """The image that a plan leaves."""
    sketches = []
    for number, line in enumerate(plan.split(b"\n"), 1):
        line = line[:-1] if line.endswith(b"\r") else line
        if not line or line.startswith(b"#"):
            continue
        try:
            run_line(line.decode("ascii").split(" "), sketches)
        except Refused as refusal:
            raise Refused(f"line {number}: {refusal}") from None
        except ArgumentError:
            raise Refused(f"line {number}: argument") from None
        except ImageError as error:
            raise AssertionError(f"line {number}: {error}, after it was checked") from None
    if len(sketches) != 1:
        raise NoCall
    return sketch_of(sketches[0]).to_bytes()


def answer(plan, wanted):
    """What a plan answers, in the form of a row's answer; None where the row is refused for its
    text alone."""
    fault = wanted.split(": ", 1)[1] if wanted.startswith("!") else None
    if fault is not None and not fault.startswith("image ") and fault not in ("range", "fold"):
        return None
    try:
        return "= " + run(plan).hex()
    except Refused as refusal:
        words = str(refusal)
        if fault in ("range", "fold"):
            words = words.replace("argument", fault)
        return "! " + words
