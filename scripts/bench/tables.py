"""The tables and pictures of docs/MEASURES.md, of the figures that the benchmarks saved: each row is what was measured, its figure, and
what it stands beside. An aim that is missed is told."""

from picture import picture, short


def listed(values):
    return ", ".join(short(value) for value in values)


def aimed(told, value, aim, is_least=False):
    """What is told, with its aim, and whether that is missed."""
    missed = value < aim if is_least else value > aim
    return "%s%saim %g%s" % (told, "; " if told else "", aim, ", missed" if missed else "")


def times(found, aim=None):
    """How many times the time of json_only that took, where it was measured."""
    if "times" not in found:
        return ""
    told = "%s times `json_only`" % short(found["times"])
    return told if aim is None else aimed(told, found["times"], aim)


def of_lines(of):
    last, number = ("{:,}".format((of[kind]["lines"] - 2) // parts) for kind, parts in (("last", 2), ("number", 3)))
    names = {"set": ("`set`", 1.3), "undo": ("pairs of `set` and `undo` of the latest", 1.3), "last": (last + " `set`, then as many `undo`", 1.3),
             "number": (number + " `set`, all undone and redone by number", 2.5), "get": ("`get`", 1.2)}
    return [(name, "%s µs a line" % short(of[kind]["us"]), times(of[kind], aim)) for kind, (name, aim) in names.items()]


def of_index(of):
    one, fills = of["set"], of["fills"]
    kept = [fill["kept"] for fill in fills]
    missed = any(fill["kept"] > 360 + 16 * (fill["cells"] - 1) for fill in fills)
    return [
        ("a `set`; more in the index", "%s; %s bytes" % (short(one["kept"]), short(one["index"])), aimed("both %s" % short(one["kept"] + one["index"]), one["kept"] + one["index"], 263)),
        ("an `add` to an associative domain", "%s bytes" % short(of["add"]["kept"]), aimed("", of["add"]["kept"], 320)),
        ("a fill of %s cells; more in the index" % ", ".join(str(fill["cells"]) for fill in fills),
         "%s; %s bytes" % (listed(kept), listed(fill["index"] for fill in fills)), "aim 360 for 1, 16 a further cell%s" % (", missed" if missed else "")),
        ("an undo of such a fill by number", "%s µs" % listed(fill["undo_us"] for fill in fills), "among {:,}".format(fills[0]["edits"])),
        ("the first undo by number", "%s ms" % short(one["first_ms"]), "after {:,} sets".format(one["edits"])),
    ]


def of_transactions(of):
    names = {"put": ("by `put`", 16), "transaction": ("by transactions of `set`", 60), "set": ("by a `set` line each", None)}
    rows = []
    for kind, (name, aim) in names.items():
        found = of[kind]
        what = "{:,} numbers {}".format(found["numbers"], name)
        rows.append((what, "%s µs; %s bytes each" % (short(found["us"]), short(found["kept"])), "" if aim is None else aimed("", found["kept"], aim)))
    if "numpy" in of:
        rows.append(("the same in numpy, with a copy", "%s µs; 8 bytes" % short(of["numpy"]["us"]), ""))
    return rows


def of_cascade(of):
    histories, chains = of["histories"], of["chains"]
    counts = ", ".join("{:,}".format(it["edits"]) for it in histories)
    return [
        ("an undo by number after %s edits" % counts, "%s µs" % listed(it["undo"] for it in histories), "`get` %s µs" % listed(it["get"] for it in histories)),
        ("`cascade` of an edit with one dependent", "%s µs" % listed(it["cascade"] for it in histories), "there"),
        ("`cascade` of a chain of %s copies" % ", ".join("{:,}".format(it["copies"]) for it in chains), "%s µs a copy" % listed(it["us"] for it in chains), ""),
    ]


def of_arrays(of):
    fills = of["fills"]
    beside = [fill["seconds"] / fill["numpy"] for fill in fills if fill["numpy"]]
    rows = [
        ("a new domain; the first", "%s µs; %s MB" % (short(of["domain"]["us"]), short(of["domain"]["mb"])), ""),
        ("an array over it, at the peak", "%s bytes an element" % short(of["array"]["bytes"]), ""),
        ("%d fills and sums of %s, with their undos" % (fills[0]["fills"], ", ".join("{:,}".format(fill["size"]) for fill in fills)),
         "%s ms; %s MB" % (listed(fill["seconds"] * 1e3 for fill in fills), short(fills[-1]["peak_mb"])),
         "%s times numpy with copies" % listed(beside) if beside else ""),
    ]
    sums, maps = ([[it for it in of[what] if it["locales"] == locales] for locales in (1, 256)] for what in ("reductions", "remaps"))
    beside = [[it["us"] / it["numpy"] for it in found if it["numpy"]] for found in sums]
    rows.append(("a sum, least, greatest, at 1; 256 locales", "%s µs" % "; ".join(listed(it["us"] for it in found) for found in sums),
                 "%s times numpy" % "; ".join(map(listed, beside)) if all(beside) else ""))
    rows.append(("a remap by %s workers, at 1; 256 locales" % ", ".join(str(it["workers"]) for it in maps[0]),
                 "%s ms" % "; ".join(listed(it["ms"] for it in found) for found in maps), ""))
    return rows + [("`check`, a million elements", "%s s, %s MB" % (short(of["check"]["seconds"]), short(of["check"]["peak_mb"])), "")]


def of_history(of):
    ways = ("history", "check", "run --resume")
    ratios = [of[way]["times"] for way in ways if "times" in of[way]]
    return [("%s, {:,} edits".format(of["edits"]) % ", ".join("`%s`" % way for way in ways), "%s s" % listed(of[way]["seconds"] for way in ways),
             "%s times `json_only`" % listed(ratios) if ratios else ""),
            ("their peaks", "%s" % listed(of[way]["peak"] for way in ways), "history and text")]


def desks(of, way, kind):
    return [it for it in of["desks"] if it["way"] == way and it["kind"] == kind]


def of_desk(of):
    rows = []
    for way in ("pipelined", "one by one"):
        for kind in ("set", "get"):
            found = [it for it in desks(of, way, kind) if it["connections"] in (1, 4, 16)]
            told = ["%s of %s" % (listed(it["beside"][peer]["ratio"] for it in found), peer) for peer in ("one session", "redis") if peer in found[0]["beside"]]
            last = found[-1]["beside"]
            if way == "pipelined":
                aims = [(last[peer]["ratio"], aim) for peer, aim in (("one session", 2), ("redis", 1)) if peer in last]
                told.append("aim %s%s" % (", ".join("%g" % aim for _, aim in aims), ", missed" if any(value < aim for value, aim in aims) else ""))
            name = "`%s` %s, %s connections" % (kind, "at once" if way == "pipelined" else way, ", ".join(str(it["connections"]) for it in found))
            rows.append((name, "%s a second" % listed(it["desk"] for it in found), "; ".join(told)))
    return rows


def of_wait(of):
    level = "real-time" if of["is_real_time"] else "normal"
    return [("a `get` behind %d dear lines of another seat, at %s priority" % (of["count"], level), "%s to %s ms" % tuple(map(short, of["ms"])),
             aimed("%s such lines" % short(of["lines"]), of["lines"], 2))]


def by_python(found):
    """What Python clients measure of desks of so many connections, where others were there too."""
    theirs = [it["by Python"] for it in found if it["by Python"]["desk"] != it["desk"]]
    ratios = [it["ratio"] for it in theirs if "ratio" in it]
    beside = "%s of redis-server" % listed(ratios) if ratios else ""
    return [("the same, a Python process a seat", "%s a second" % listed(it["desk"] for it in theirs), beside)] if theirs else []


def of_journal(of):
    at_once, single, opening = of["at once"], of["one by one"], of["opening"]
    rows = [
        ("`set` at once, with a journal", "%s a second" % short(at_once["kept"]), aimed("%s of those without" % short(at_once["ratio"]), at_once["ratio"], 0.5, True)),
        ("`set` one by one, a session", "%s a second" % short(single["with a journal"]),
         "%s without; %s writes and syncs alone" % (short(single["without"]), short(single["a write and a sync alone"]))),
    ]
    if of.get("desks"):
        found = of["desks"]
        ratios = [it["ratio"] for it in found if "ratio" in it]
        beside = aimed("%s of redis-server that syncs each" % listed(ratios), min(ratios), 1, True) if ratios else "no redis-server there"
        rows.append(("the same, %s seats" % ", ".join(str(it["connections"]) for it in found), "%s a second" % listed(it["desk"] for it in found), beside))
        rows += by_python(found)
    memory = opening["peak"] / opening["history"]
    return rows + [
        ("a change in the file", "%s bytes" % short(of["bytes"]["file"]), "its line %s" % short(of["bytes"]["line"])),
        ("opening {:,} sets, {:.1f} MB".format(opening["sets"], opening["bytes"] / 1e6), "%s s" % short(opening["seconds"]), times(opening, 4)),
        ("its peak", "%s MB" % short(opening["peak"] / 1e6), aimed("%s times that of the session" % short(memory), memory, 2)),
    ]


def of_slow_lines(of):
    """The lines above the aim beyond what they touch, and the first within it."""
    above = [it for it in of["lines"] if it["beyond"] > 50]
    rows = of["lines"][: len(above) + 1]
    return [("%s, {:,} cells".format(it["cells"]) % it["line"], "%s ms" % short(it["ms"]), aimed("%s beyond" % short(it["beyond"]), it["beyond"], 50)) for it in rows]


def undo_picture(of):
    found = of["cascade"]["histories"]
    lines = {"undo by number": "undo", "cascade, one dependent": "cascade", "get": "get"}
    return picture("An undo by number, its way through a pipe included", "edits in the history", "µs",
                   {name: [(it["edits"], it[what]) for it in found] for name, what in lines.items()})


def arrays_picture(of):
    found = of["arrays"]["fills"]
    return picture("%d fills and sums of whole arrays, with their undos" % found[0]["fills"], "elements of an array", "ms",
                   {"workbook": [(it["size"], it["seconds"] * 1e3) for it in found if it["seconds"] > 0],
                    "numpy with copies": [(it["size"], it["numpy"] * 1e3) for it in found if it["numpy"]]}, log_y=True)


def desk_picture(of):
    found = desks(of["desk"], "pipelined", "set")
    lines = {"desk": [(it["connections"], it["desk"]) for it in found]}
    for peer in ("one session", "redis"):
        lines[peer] = [(it["connections"], it["beside"][peer]["lines"]) for it in found if it["beside"].get(peer, {}).get("lines", 0) > 0]
    return picture("set lines that are sent at once", "connections", "lines a second", lines)


TABLES = {"lines": of_lines, "index": of_index, "transactions": of_transactions, "cascade": of_cascade, "arrays": of_arrays, "history": of_history, "desk": of_desk,
          "wait": of_wait, "journal": of_journal, "slow-lines": of_slow_lines}
PICTURES = {"cascade": ("undo", undo_picture, "undo by number"), "arrays": ("arrays", arrays_picture, "whole arrays"),
            "desk": ("desk", desk_picture, "desk")}
