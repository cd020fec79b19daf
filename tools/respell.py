#!/usr/bin/env python3
"""Brings the repository's own words of clauses, specs/ and proofs/ to one spelling: snake case, an underscore between plain words.

usage: python3 tools/respell.py [--names]     at the top, once, right after port.py

port.py respells the library's words; this respells ours. `illegalField` becomes `illegal_field`, `push-appends` `push_appends`, `maySend`,
which is a fact, `MaySend`. Names that Rattle makes (goals, steps, places of a walk), the functions of src/ and the names of files keep
theirs. --names prints the table and writes nothing.
"""
import glob
import re
import sys

FACTS = {"maySend": "MaySend"}
# what would fall together with a word of the library or of the language, or with another of ours
OTHERWISE = {
    # a definition and the function that computes it, in one module
    "nextCycle": "following_cycle",
    "oneCredit": "with_one_credit",
    "holdsBlocks": "is_whole_blocks",
    "isWhole": "is_whole_list",
    "cyclePart": "part_of_cycle",
    "isFree": "is_vc_free",
    "freeVc": "lowest_free_vc",
    "withHolder": "set_holder",
    "withBinding": "set_binding",
    "boundPlace": "place_bound",
    "heldPlace": "place_held",
    "startsInside": "begins_inside",
    "checkOf": "check_value",
    "kindWrong": "has_wrong_kind",
    "totalWrong": "has_wrong_total",
    "unusedWrong": "has_wrong_unused",
    "orderWrong": "has_wrong_order",
    "numberWrong": "has_wrong_number",
    "countWrong": "has_wrong_count",
    "bodyEnd": "end_of_body",
    "mayHold": "can_hold",
    # a definition and a lemma or constructor that port.py spells so already
    "goesOn": "going_on",
    "blockRoom": "room_of_block",
    "byField": "judged_by_field",
    "firstOn": "first_acting",
    # the definition that a wrong version makes, beside the field that tells it from the right one
    "twoVcsOfOneInputLeave": "wrong_two_vcs_of_one_input_leave",
    "departureStaysInItsQueue": "wrong_departure_stays_in_its_queue",
    "creditHomeWhenQueued": "wrong_credit_home_when_queued",
    "highestFreeVc": "wrong_highest_free_vc",
    "bodyRoutedByItsDestination": "wrong_body_routed_by_its_destination",
    "idleRowNotLookedAt": "wrong_idle_row_not_looked_at",
    "freedAndGivenOutInOneCycle": "wrong_freed_and_given_out_in_one_cycle",
    "bodyOnAnotherOutputVc": "wrong_body_on_another_output_vc",
    "creditNeededToBind": "wrong_credit_needed_to_bind",
    "departuresOfTheLastOutputsLost": "wrong_departures_of_the_last_outputs_lost",
    "inputVcForOutputVc": "wrong_input_vc_for_output_vc",
    "runOnlyCounts": "wrong_run_only_counts",
    "cyclesNumberedFromOne": "wrong_cycles_numbered_from_one",
    "endsBeforeTheInputDoes": "wrong_ends_before_the_input_does",
    "flitsOfTheFirstLineOnly": "wrong_flits_of_the_first_line_only",
    "cLinesCountedAsFlits": "wrong_c_lines_counted_as_flits",
    "bodyHasADestination": "wrong_body_has_a_destination",
    "refusedCycleLeavesATrace": "wrong_refused_cycle_leaves_a_trace",
    "goesOnAfterARefusal": "wrong_goes_on_after_a_refusal",
    "linesOfACycleTwice": "wrong_lines_of_a_cycle_twice",
    "worksInCycle0AndOnlyCountsAfterwards": "wrong_works_in_cycle_0_and_only_counts_afterwards",
    "departureStaysInTheStore": "wrong_departure_stays_in_the_store",
    "refusedCycleMovesAPointer": "wrong_refused_cycle_moves_a_pointer",
    "fiveBeforePhase1": "wrong_five_before_phase_1",
    "portsBeyondPNotLookedAt": "wrong_ports_beyond_p_not_looked_at",
}
# lemmas whose words, joined, are a definition's name
LAWS = {
    "bit-and", "bit-or", "pointer-after", "fresh-row", "word-of", "in-range", "grant-to", "queue-now", "binds-once", "is-there",
    "is-some", "good-place", "field-wrong", "cycle-length", "sent-out", "output-credits-fit", "names-agree", "output-credits",
    "passes-by", "leaves-from", "bound-now", "changed-at", "on-vc", "binding-is", "holder-is", "wire-rest", "home-rest", "row-legal",
    "input-unused", "names-pass", "input-names", "output-unused", "output-names", "channels-unused", "fresh-view",
    "configuration-legal", "wire-flit", "check-wrong", "leaves-credit", "leaves-flit", "leaves-bound", "binds-vc", "binds-free",
    "offer-destination", "binds-front", "offer-vc", "binds-unbound", "input-at",
}

WORD = r"[^\s(){}\[\].,;:=\"`]+"
CAMEL = re.compile(r"^[a-z][A-Za-z0-9_'-]*$")


def texts(pattern):
    return sorted(glob.glob(pattern, recursive=True))


def made(path):
    """A file of a function's proof: most of its names are Rattle's."""
    return path.endswith(("/Proof.antt", "/Answers.antt", "/Invariants.antt"))


def bare(text):
    return re.sub(r"--[^\n]*|//[^\n]*", "", text)


def snake(name):
    if name in FACTS:
        return FACTS[name]
    if name in OTHERWISE:
        return OTHERWISE[name]
    tail = "-law" if name in LAWS else ""
    name = re.sub(r"([A-Z])([A-Z][a-z])", r"\1_\2", re.sub(r"([a-z0-9])([A-Z])", r"\1_\2", name))
    return name.lower().replace("-", "_") + tail


def taken_from_std(text):
    """Words that a file has from the library, under whatever module of it."""
    for m in re.finditer(r"use (?!Rattle\.(?!std\.))[\w.+-]+\.\{([^}]*)\}", text):
        for item in m.group(1).split(","):
            yield item.split(" as ")[-1].strip()


def declared(text):
    """Names at the head of a line: definitions, lemmas; and the fields of records and constructors."""
    for line in text.split("\n"):
        m = re.match(r"^\s*(?:(?:abbrev|unfoldable|pub|opaque)\s+)*([a-z][^\s:(){}]*)\s*(?:\(|\{|:)", line)
        if m:
            yield m.group(1)


def table():
    antt = texts("crates/*/specs/**/*.antt") + texts("crates/*/proofs/**/*.antt")
    everything = antt + texts("crates/*/src/**/*.rt")
    read = {p: bare(open(p, encoding="utf-8").read()) for p in everything}
    std = {w for t in read.values() for w in taken_from_std(t)}
    words = {w for p, t in read.items() if not p.endswith(("/Answers.antt", "/Invariants.antt")) for w in re.findall(WORD, t)}
    functions = {m for p in everything if p.endswith(".rt") for m in re.findall(r"\bfn (\w+)", read[p])}
    names = {}
    for w in words:
        # our own camel words, wherever they stand
        if CAMEL.match(w) and re.search(r"[A-Z]", w) and "_" not in w and w not in std and not w.startswith(("in-", "b'")):
            names[w] = snake(w)
    for p in antt:
        if not made(p):
            for w in declared(read[p]):
                if CAMEL.match(w) and "-" in w and w not in std and not w.endswith("-law"):
                    names[w] = snake(w)
    together = {}
    for old, new in names.items():
        together.setdefault(new, set()).add(old)
    for old in words:
        if old not in names and old in together:
            together[old].add(old + " (as it is)")
    clash = {n: olds for n, olds in together.items() if len(olds) > 1}
    return names, clash, functions


def respell(text, names, only=None):
    def one(m):
        w = m.group(0)
        if w in names and (only is None or w in only):
            return names[w]
        return w

    return re.sub(r"(?<![\w'·-])[A-Za-z][\w'-]*", one, text)


def wanted_in_walk(text, names):
    """In a proof that walks the code: our words are those that it imports or reaches by an alias; camel words are always ours."""
    only = {w for w in names if re.search(r"[A-Z]", w)}
    for m in re.finditer(r"use Rattle\.(\w+)\.(?:specs|proofs)\.[^{\n]*\{([^}]*)\}", text):
        if m.group(1) != "std":
            only |= {i.split(" as ")[0].strip() for i in m.group(2).split(",")}
    return only


def aliases(text, names):
    for alias in re.findall(r"^use Rattle\.(?!std)\w+\.(?:specs|proofs)\.[\w.]+ as ([\w'-]+)", text, re.M):
        text = re.sub(rf"(?<![\w'.-]){re.escape(alias)}\.([a-z][\w'-]*)", lambda m: alias + "." + names.get(m.group(1), m.group(1)), text)
    return text


def main():
    names, clash, functions = table()
    if "--names" in sys.argv:
        for old in sorted(names):
            print(old, names[old])
        print("together:", file=sys.stderr)
        for n, olds in sorted(clash.items()):
            print(" ", n, "from", ", ".join(sorted(olds)), file=sys.stderr)
        return
    for p in texts("crates/*/specs/**/*.antt") + texts("crates/*/proofs/**/*.antt") + texts("crates/*/src/**/*.rt"):
        text = open(p, encoding="utf-8").read()
        was = text
        text = re.sub(r"\b(Line|Digits)·(\w+)", lambda m: m.group(1).lower() + "_" + m.group(2), text)
        if made(p):
            text = aliases(respell(text, names, wanted_in_walk(text, names)), names)
        else:
            text = respell(text, names)
        if text != was:
            open(p, "w", encoding="utf-8").write(text)


main()
