#!/usr/bin/python3
"""What page_told.py says of days that are written down here, and what the strangers of stranger.py answer.

    scripts/outside/days/page_told_check.py [WORD ..]

The last line is 'N passed, M failed'; the exit status is 1 where one failed.
"""

import pathlib
import socket
import sys
import time

sys.path.insert(0, str(pathlib.Path(__file__).resolve().parents[1] / "lib"))
from checks import end, expect, run_checks, words_given  # noqa: E402
from page_day import Day  # noqa: E402
from page_days import STEPS, shortest, steps_of  # noqa: E402
from page_told import Act, Row, Told  # noqa: E402
from stranger import ANSWERS, OKS, PAGE, Stranger  # noqa: E402

SEEN = {"title": "S1 t1", "note": "n1", "amount": 1}
STOOD = Row(**SEEN)


def told(*acts):
    """A row of the office's, and what was saved behind that."""
    found = Told()
    found.acts = [Act("S1", dict(SEEN), None, "S1 t1", crew=False), *acts]
    return found


def change(base=None, name="S1 t1", **new):
    return Act("S1", new, {**SEEN, **(base or {})}, name)


def removal(base=None):
    return Act("S1", None, {**SEEN, **(base or {})}, "S1 t1")


def expect_wrong(found, words):
    """Each of the words is told, in their order, and nothing else is."""
    assert len(found) == len(words) and all(
        word in it for word, it in zip(words, found)
    ), f"found: {found}\nwanted: {words}"


def check_what_stands_is_as_it_was_told(_):
    day = told(change(amount=2), change({"amount": 2}, note="n3"))
    expect(day.wrong({"S1": [Row("S1 t1", "n3", 2)]}, []), [], "what stands")


def check_what_was_saved_and_is_gone(_):
    expect_wrong(told(change(amount=2)).wrong({"S1": [STOOD]}, []), ["amount 2 of the crew is neither"])
    expect_wrong(told(change(amount=2)).wrong({}, []), ["title 'S1 t1'", "amount 2"])
    new = Act("C2", {"title": "C2 t2", "note": "", "amount": 0}, None, "C2 t2")
    expect_wrong(told(new).wrong({"S1": [STOOD]}, []), ["C2: title 'C2 t2'"])


def check_what_is_listed(_):
    expect(
        told(change(name="S1 t2", title="S1 t2")).wrong({"S1": [STOOD]}, ["S1 t2 / waits to be sent"]), [], "what waits"
    )
    expect(told(removal()).wrong({"S1": [STOOD]}, ["remove S1 t1 / refused"]), [], "what was refused")


def check_what_stands_twice(_):
    expect_wrong(told().wrong({"S1": [STOOD, STOOD]}, []), ["S1 stands 2 times"])
    expect_wrong(
        told().wrong({"S1": [Row(**SEEN, photos=[(4, 3), (4, 3)])]}, []), ["the photo of 4 x 3 stands 2 times"]
    )


def check_what_nobody_wrote(_):
    expect_wrong(
        told().wrong({"S1": [Row("S1 t1", "n9", 1)], "X": [STOOD]}, []),
        ["X is a row of nobody", "nobody wrote its note 'n9'", "title"],
    )


def check_who_saved_a_row(_):
    """An act that wrote the note has a crew's name there; another's name, or none, is told; not where an office wrote
    it."""
    day = told(
        Act("S1", {"note": "n3"}, dict(SEEN), "S1 t1", by="Ada"),
        Act("S1", {"amount": 2}, {**SEEN, "note": "n3"}, "S1 t1", by="Ben"),
    )
    for by in ("Ada", "Ben"):
        expect(day.wrong({"S1": [Row("S1 t1", "n3", 2, by=by)]}, []), [], "what stands")
    expect_wrong(
        day.wrong({"S1": [Row("S1 t1", "n3", 2)]}, []), ["S1 tells nobody who saved it, and ['Ada', 'Ben'] have"]
    )
    expect_wrong(
        day.wrong({"S1": [Row("S1 t1", "n3", 2, by="Cid")]}, []),
        ["S1 was saved by 'Cid', and ['Ada', 'Ben'] have saved it"],
    )
    day.unsigned.add("S1")
    expect(day.wrong({"S1": [Row("S1 t1", "n3", 2)]}, []), [], "what an office wrote")
    expect(told(change(note="n3")).wrong({"S1": [Row("S1 t1", "n3", 1)]}, []), [], "what a crew without a name wrote")


def check_the_last_of_two_that_wins(_):
    """The second form hadn't seen the first's value, and writes the whole row, or another value of the same field."""
    day = told(change(amount=2), change(note="n3"))
    expect_wrong(day.wrong({"S1": [Row("S1 t1", "n3", 1)]}, []), ["amount 2"])
    day = told(change(amount=2), change(amount=3))
    expect_wrong(day.wrong({"S1": [Row("S1 t1", "n1", 3)]}, []), ["amount 2"])
    expect(
        told(change(amount=2), change(note="n3")).wrong({"S1": [Row("S1 t1", "n3", 2)]}, []), [], "both of two fields"
    )


def check_removals(_):
    expect(told(change(amount=2), removal({"amount": 2})).wrong({}, []), [], "a removal of what was seen")
    expect_wrong(told(change(amount=2), removal()).wrong({}, []), ["amount 2"])
    expect_wrong(told(removal(), change(amount=2)).wrong({"S1": [Row("S1 t1", "n1", 2)]}, []), ["the removal"])


def check_an_act_whose_end_nobody_saw(_):
    day = told(change(amount=2))
    day.acts[-1].sure = False
    for amount in (1, 2):
        expect(day.wrong({"S1": [Row("S1 t1", "n1", amount)]}, []), [], "an act that came to nothing, or not")


def check_a_package_that_was_replaced(_):
    """What stood in it may be gone; what waited may not."""
    day = told(change(amount=2), change({"amount": 2}, note="n3"))
    day.replaced({"S1": [Row("S1 t1", "n1", 2)]})
    expect_wrong(day.wrong({"S1": [STOOD]}, []), ["note 'n3'"])


def check_photos(_):
    act = change(amount=2)
    act.photos = ((4, 3), (5, 3))
    row = Row("S1 t1", "n1", 2, [(4, 3)])
    expect_wrong(told(act).wrong({"S1": [row]}, []), ["the photo of 5 x 3"])
    expect(told(act).wrong({"S1": [row]}, ["S1 t1: one more photo / waits"]), [], "a photo that waits")


def check_what_was_decided(_):
    """The crew's side is thrown away, or is taken over what stood beside it; nothing else is."""
    office = change(amount=3)
    office.crew = False
    stands = {"S1": [Row("S1 t1", "n1", 3)]}
    day = told(office, change(amount=2))
    day.decided("S1 t1 / changed meanwhile", stands, False)
    expect(day.wrong(stands, []), [], "an act that was thrown away")
    expect_wrong(day.wrong({"S1": [Row("S1 t1", "n1", 2)]}, []), ["amount 3 of the office"])
    day = told(office, change(amount=2))
    day.decided("S1 t1 / changed meanwhile", stands, True)
    expect(day.wrong({"S1": [Row("S1 t1", "n1", 2)]}, []), [], "the crew's own side")
    expect_wrong(day.wrong(stands, []), ["amount 2 of the crew"])


def check_a_row_that_is_made_again(_):
    day = told(removal(), change(amount=2))
    day.decided("S1 t1 / changed meanwhile", {}, True)
    expect(day.wrong({"S1": [Row("S1 t1", "n1", 2)]}, []), [], "the row that was made again")


def check_what_nobody_knows_on_which_act_was_decided(_):
    day = told(change(amount=2), change(note="n3"))
    day.decided("S1 t1 / changed meanwhile", {"S1": [STOOD]}, False)
    expect(day.wrong({"S1": [STOOD]}, []), [], "one of two acts that was thrown away")
    expect_wrong(day.wrong({"S1": [STOOD, STOOD]}, []), ["2 times"])


def check_a_day_is_shortened(_):
    """To the steps without which it doesn't go wrong, wherever they stand."""
    for needed in ((0, 19), (7, 8), (3,), (0, 5, 12)):
        tried = []

        def go(steps, needed=needed, tried=tried):
            tried.append(steps)
            return "wrong" if set(needed) <= set(steps) else None

        expect(shortest(go, list(range(20)), "first"), (list(needed), "wrong"), "the steps that are left")
        assert len(tried) < 60, f"{len(tried)} days were tried"
    expect(shortest(go, [0, 5, 12], "first", seconds=0), ([0, 5, 12], "first"), "what is left where no time is")


def check_a_seed_s_days(_):
    """A seed makes the same day each time, and another number another."""
    days = [steps_of(1, number, list(STEPS)) for number in (0, 0, 1)]
    expect((days[0] == days[1], days[0] == days[2]), (True, False), "whether days are the same")
    expect([name for name in STEPS if not hasattr(Day, f"do_{name}")], [], "steps that no day can do")


def asked(port, body=b""):
    with socket.create_connection(("127.0.0.1", port), timeout=60) as it:
        it.sendall(b"POST /key/records HTTP/1.1\r\nContent-Length: %d\r\n\r\n" % len(body) + body)
        return b"".join(iter(lambda: it.recv(65536), b""))


def check_strangers(_):
    """Each answers as its name says, also behind a body that comes in parts; and the port is free at once."""
    port = 0
    for name in ANSWERS:
        with Stranger(port, name) as stranger:
            port = stranger.port
            answer = asked(port, b"row" * 100_000)
            expect(stranger.asked, [("POST", "/key/records")], "what it was asked")
        head, _, body = answer.partition(b"\r\n\r\n")
        size = int(head.split(b"Content-Length: ")[1].split(b"\r\n")[0]) if head else 0
        expect(
            (not answer, len(body) < size), (name == "closes", name.startswith("cut")), f"whether {name} closes or cuts"
        )
        if name in ("page", "too many oks"):
            expect(body, PAGE if name == "page" else OKS, name)
        if name == "redirect":
            assert b"302" in head and b"Location: /login" in head, head


def check_a_stranger_that_leaves(_):
    """Its connections end with it: a browser that has opened one ahead would ask it still."""
    with Stranger(0, "lines") as stranger:
        ahead = socket.create_connection(("127.0.0.1", stranger.port), timeout=60)
        while not stranger.connections:
            time.sleep(0.01)
    with ahead:
        expect(ahead.recv(1), b"", "what comes of a connection that was opened ahead")


if __name__ == "__main__":
    end(*run_checks("what was told", globals(), words_given(__doc__).words, lambda check: check(None)))
