#!/usr/bin/env python3
"""Turns the walks of an older kit (proofs/F/Proof.antt) into today's Invariants.antt and Answers.antt.

usage: python3 tools/answers.py NAMES CRATE [FUNCTION..]

CRATE is a crate's folder; NAMES is the names.json that `rt check --generated DIR --old-names` writes for it. Each goal, place, step and
field goes by its new name; an answer that is only `search rules` is left out, since the check finds it. What it could not turn is printed.
With WORDS in the environment, the file of what `respell.py --names` printed before it respelled, fields of our own records go by that too.
"""
import glob
import json
import os
import re
import sys

STEP = r"[^\s(){}\[\].,;:=]+"


def blocks(text):
    """Top-level blocks: a comment stays with what follows it."""
    out, cur = [], []
    for line in text.split("\n"):
        if line.strip() == "" and cur:
            out.append("\n".join(cur))
            cur = []
        elif line.strip():
            cur.append(line)
    if cur:
        out.append("\n".join(cur))
    # a `where` or an indented continuation belongs to the block before it
    joined = []
    for b in out:
        if joined and b.startswith(" "):
            joined[-1] += "\n" + b
        else:
            joined.append(b)
    return joined


def pieces(text):
    """The parts of a tuple."""
    out, depth, cur = [], 0, ""
    for ch in text:
        depth += (ch in "([{") - (ch in ")]}")
        if ch == "," and depth == 0:
            out.append(cur.strip())
            cur = ""
        else:
            cur += ch
    return out + [cur.strip()] if cur.strip() else out


def split_args(text):
    """The arguments of a call, as written."""
    args, depth, cur = [], 0, ""
    for ch in text:
        if ch in "([{":
            depth += 1
        if ch in ")]}":
            depth -= 1
        if ch.isspace() and depth == 0:
            if cur:
                args.append(cur)
            cur = ""
        else:
            cur += ch
    if cur:
        args.append(cur)
    return args


def alike(name):
    return name.replace("_", "-")


# what a name that a `let` binds to one of these has below it are variables, and no steps
def functions(root):
    """Each function's path, as `crate::module::Type::name`, with its text up to its body."""
    for path in sorted(glob.glob(os.path.join(root, "crates/*/src/**/*.rt"), recursive=True)):
        parts = os.path.relpath(path, os.path.join(root, "crates"))[:-3].split("/")
        module = [parts[0]] + [p for p in parts[2:] if p not in ("lib", "main", "mod")]
        text = re.sub(r"//[^\n]*", "", open(path, encoding="utf-8").read())
        owner = None
        for m in re.finditer(r"^impl(?:<[^>]*>)? (\w+)|^\}|\bfn (\w+)(?:<[^>]*>)?\(", text, re.M):
            if m.group(1):
                owner = m.group(1)
            elif m.group(2):
                stop = re.search(r"\n {0,8}\{\n|\n\}", text[m.end():])
                yield "::".join(module + ([owner] if owner else []) + [m.group(2)]), text[m.end(): m.end() + (stop.start() if stop else 0)]
            else:
                owner = None


def clause_names(root):
    """Of each function of the repository with several clauses of a kind, their names in order, by kind."""
    out = {}
    for name, part in functions(root):
        for kind in ("requires", "ensures"):
            names = re.findall(r"\b" + kind + r" (\w+) \{", part)
            if len(names) > 1:
                out.setdefault(name, {})[kind] = names
    return out


def lent_names(root):
    """Of each function, its parameters that are lent to be changed, in order."""
    out = {}
    for name, part in functions(root):
        m = re.match(r"((?:[^()]|\([^()]*\))*)\)", part)
        out[name] = [p.split(":")[0].strip() for p in m.group(1).split(",") if re.search(r":\s*&(?:'\w+ )?mut\b", p)]
    return out


def generic_names(root):
    """The functions with a type parameter: their answers and invariants take `g` first."""
    out = set()
    for path in glob.glob(os.path.join(root, "crates/*/src/**/*.rt"), recursive=True):
        parts = os.path.relpath(path, os.path.join(root, "crates"))[:-3].split("/")
        module = [parts[0]] + [p for p in parts[2:] if p not in ("lib", "main", "mod")]
        for m in re.finditer(r"\bfn (\w+)<[A-Z]", open(path, encoding="utf-8").read()):
            out.add("::".join(module + [m.group(1)]))
    return out


GENERIC = set()
LENT = {}
WORDS = {}
CLAUSES = {}
VARIABLES = re.compile(r"\.(args|new|initial|ranges|auto|requires|ensures|result|invariant|now|loop[^.\s()]*)\)?$")


class Function:
    def __init__(self, path, entry, crate, said):
        self.path, self.entry, self.crate, self.said = path, entry, crate, said
        self.own = "::".join([os.path.basename(os.path.abspath(crate))] + path.split("/"))
        places = entry["places"]
        new = entry["places_by_name"]
        self.places = {alike(p[0]): n for p, n in zip(places, new)}
        for k, v in list(self.places.items()):
            short = re.sub(r"-\d+$", "", v)
            if re.match(r"In[-_]", v) and short in new:
                self.places[k] = short
        self.parents = {alike(p[0]): alike(p[1]) for p in places if p[1]}
        self.asked_at = [alike(a[0]) for a in entry["asked_at"]]
        self.helpers, self.nav, self.takes = {}, [], {}
        self.args = {}
        for old, now in entry["args"]:
            if old.startswith((".args ", ".ranges ")):
                self.args[old.split()[-1].lstrip(".")] = now.split()[-1].lstrip(".")
        self.arms = {}
        for arm in entry["arms"]:
            for field, step, path in arm[2] if arm else []:
                if path:
                    self.arms[(alike(step), tuple(path))] = (arm[0], field)
        self.arms = {(st, pa): v for (st, pa), v in self.arms.items()}
        self.steps, self.fields, self.named, self.callee = {}, {}, set(), {}
        for p, n in zip(places, new):
            old, now = p[2]
            if old:
                self.steps[alike(old)] = now
                if p[3]:
                    self.callee[now] = p[3]
                self.fields.setdefault(now, {}).update({a: b for a, b in p[4]})
        self.loops = {l[0][0]: l[0][1] for l in entry["loops"]}
        self.needs = entry["needs"]
        self.need_names = {}
        for old, now in self.needs:
            self.need_names[alike(old)] = now

    def need(self, name):
        for n in (name, re.sub(r"^(overflow|nonzero)-", "", name)):
            if alike(n) in self.need_names:
                return self.need_names[alike(n)]
        return None

    def place(self, m):
        now = self.places.get(alike(m.group(1)))
        if now is None:
            self.said.append(f"{self.path}: place {m.group(1)} is not there")
            return "goal." + m.group(1)
        self.named.add(now)
        return now

    def env(self, goal, param):
        names = [n for _, n in self.needs]
        return {param: self.asked_at[names.index(goal)]} if goal in names else {}

    def back(self, place, k):
        """The place k steps before one."""
        for _ in range(k):
            place = self.parents.get(place)
        return place

    def head(self, text):
        """A helper's signature: the places of its arguments, and of what it gives."""
        text = "\n".join(l for l in text.split("\n") if not l.startswith("--"))
        m = re.match(r"(?:abbrev )?(?:pub )?([^\s:(){}]+) :((?:.|\n)*?)\n(?=\S)", text)
        if not m:
            return None, {}, None
        name, sig = m.groups()
        eq = re.search(r"^" + re.escape(name) + r"((?: [^\s=:]+)*)\s*=", text, re.M)
        params = eq.group(1).split() if eq else []
        env = {}
        groups, depth, cur = [], 0, ""
        for ch in sig + " ":
            if ch in "([{":
                depth += 1
            if ch in ")]}":
                depth -= 1
            cur += ch
            if depth == 0 and ch == ")" and re.match(r"^\s*\([^():]+ :", cur):
                groups.append(cur.strip())
                cur = ""
            elif depth == 0 and ch == "→":
                if cur[:-1].strip():
                    groups.append(cur[:-1].strip())
                cur = ""
        arrows = groups + [cur.strip()]
        at = 0
        for group in groups:
            names = re.match(r"^\(([^():]+) :", group)
            k = re.match(r"^\(?(?:[^\s:()]+ : )?tie\.([^\s()]+)(?: (?:invariant|decreases)-[^\s()]+)*\)?$", group)
            if k and at < len(params):
                env[params[at]] = alike(k.group(1))
            at += len(names.group(1).split()) if names else 1
        last = re.match(r"^tie\.([^\s()]+)", arrows[-1])
        return name, env, alike(last.group(1)) if last else None

    def navigates(self, text):
        """Whether a helper only goes back to an earlier place: then nothing of it is needed today."""
        text = "\n".join(l for l in text.split("\n") if not l.startswith("--"))
        m = re.match(r"abbrev (?:pub )?([^\s:]+) :(?:.|\n)*?\n\1((?: \S+)*) =((?:.|\n)*)$", text)
        if not m or len(m.group(2).split()) != 1:
            return False
        rest = re.sub(r"\.before\b", "", m.group(3))
        for word in re.findall(r"[^\s()]+", rest):
            if word != m.group(2).strip() and word not in self.nav:
                return False
        return True

    def body(self, text, env, goal):
        """Steps, fields and places by their new names; what an earlier place has is named from the record itself."""
        mark = lambda root, place: f"\u27ea{root}|{place}\u27eb"
        for var, place in env.items():
            text = re.sub(r"(?<![\w.'\u2080-\u2089-])" + re.escape(var) + r"(?![\w'\u2080-\u2089-])", mark(var, place), text)
        # the head of the equation keeps its variable
        plain = lambda m: re.sub(r"\u27ea([^|]+)\|[^\u27eb]*\u27eb", r"\1", m.group(1))
        text = re.sub(r"^([^\s:(){}]+(?: [^\s=:]+)* =)", plain, text, flags=re.M)
        text = re.sub(r"\(\u27ea([^|]+)\|[^\u27eb]*\u27eb :", r"(\1 :", text)
        MARK = r"\u27ea([^|]+)\|([^\u27eb]*)\u27eb"
        while True:
            was = text
            text = re.sub(MARK + r"\.before(?![\w-])", lambda m: mark(m.group(1), self.back(m.group(2), 1)), text)
            for name in self.nav:
                text = re.sub(r"(?<![\w.'-])" + re.escape(name) + r" " + MARK, lambda m: mark(m.group(1), self.helpers[name]), text)
            text = re.sub(r"\(" + MARK + r"\)", lambda m: mark(m.group(1), m.group(2)), text)
            k = re.search(r" *let (\S+)(?: : [^=\n]*)? = " + MARK + r"\s+in\n?", text)
            if k:
                alias = k.group(1)
                rest = text[k.end():]
                word = r"(?<![\w.'\u2080-\u2089-])" + re.escape(alias) + r"(?![\w'\u2080-\u2089-])"
                rest = re.sub(word, mark(k.group(2), k.group(3)), rest)
                text = text[:k.start()] + rest
            for k in re.finditer(r" *let (\S+)(?: : [^=\n]*)? = (" + MARK + r"(?:\." + STEP + r")+)\s+in\n?", text):
                if alike(k.group(2).split("\u27eb.")[1].split(".")[0]) in self.steps:
                    alias = k.group(1)
                    rest = text[k.end():]
                    rest = re.sub(r"(?<![\w.'\u2080-\u2089-])" + re.escape(alias) + r"(?![\w'\u2080-\u2089-])", lambda m: k.group(2), rest)
                    text = text[:k.start()] + rest
                    break
            if text == was:
                break
        text = re.sub(MARK + r"((?:\." + STEP + r")+)", lambda m: m.group(1) + "." + self.chain(m.group(3)[1:].split("."), True), text)

        def alone(m):
            root, place = m.groups()
            if place == env.get(root):
                return root
            target = self.places.get(place)
            if target is None:
                self.said.append(f"{self.path}: {m.group(0)} leads nowhere")
                return m.group(0)
            self.named.add(target)
            at = goal if root == "c" and goal else self.places.get(env[root])
            return f"(goal.at.{at} {root}).{target}"

        for name, wants in self.takes.items():
            text = re.sub(r"(?<![\w.'-])" + re.escape(name) + r" " + MARK, lambda m: name + " " + mark(m.group(1), wants), text)
        text = re.sub(MARK, alone, text)
        below = lambda m: "." + self.chain(m.group(1)[1:].split("."), False)
        text = re.sub(r"(?<=[\w')\u2080-\u2089])((?:\." + STEP + r")+)", below, text)
        return re.sub(r"tie\.(" + STEP + ")((?: (?:invariant|decreases)-" + STEP + ")*)", self.place, text)

    def chain(self, parts, step):
        """What follows a record, by today's names; `step` says that the first part is a step of the code."""
        out = []
        if step and alike(parts[0]) in self.steps:
            old = alike(parts[0])
            now = self.steps[old]
            for (arm_step, arm_path), (arm, field) in self.arms.items():
                if arm_step == old and tuple(parts[1:1 + len(arm_path)]) == arm_path:
                    return ".".join([arm, field] + parts[1 + len(arm_path):])
            out = [now]
            parts = parts[1:]
            if parts:
                field = parts[0]
                if now.startswith("if") or now.endswith("-test"):
                    field = {"taken": "true", "left": "false"}.get(field, field)
                field = {"inv": "invariant", "last": "new", "kept": "auto"}.get(field, field)
                field = self.fields.get(now, {}).get(field, field)
                out.append(field)
                if field in ("new", "auto") and len(parts) > 1 and re.fullmatch(r"\d+", parts[1]):
                    names = LENT.get(self.callee.get(now, ""), [])
                    if int(parts[1]) < len(names):
                        parts = [parts[0], names[int(parts[1])]] + parts[2:]
                parts = parts[1:]
        if not step and parts and (parts[0] in self.steps.values() or parts[0] in {a for a, _ in self.arms.values()}):
            out, parts = [parts[0]], parts[1:]
        if step and parts and parts[0] == "good":
            parts = ["well_formed"] + parts[1:]
        before = out[-1] if out else None
        for p in parts:
            if before in ("args", "ranges") or before is None and re.fullmatch(r"t\d+", p):
                p = self.args.get(p, p)
            elif p in ("well-formed", "type-inv"):
                p = p.replace("-", "_")
            elif p in WORDS and not step:
                p = WORDS[p]
            elif p in WORDS and before is not None:
                p = WORDS[p]
            out.append(p)
            before = p
        return ".".join(self.by_clause(out))

    def by_clause(self, parts):
        """`f.ensures.0` is `f.ensures.NAME` where f has several; the function's own `requires` and `pre` likewise."""
        parts = ["requires" if p == "pre" else p for p in parts]
        for i, p in enumerate(parts[:-1]):
            if p == "ensures" and i and re.fullmatch(r"\d+", parts[i + 1]):
                names = CLAUSES.get(self.callee.get(parts[i - 1], ""), {}).get("ensures")
                if names:
                    parts[i + 1] = names[int(parts[i + 1])]
            if p == "requires" and re.fullmatch(r"\d+", parts[i + 1]):
                names = CLAUSES.get(self.own, {}).get("requires")
                if names:
                    parts[i + 1] = names[int(parts[i + 1])]
        return parts


def tidy(text):
    # a test on a bool: today's step has the fact itself
    text = re.sub(r"not-true \(?[\w.'-]+\)? ([\w.'-]+)\.true-raw", r"\1.true", text)
    text = re.sub(r"not-false \(?[\w.'-]+\)? ([\w.'-]+)\.false-raw", r"\1.false", text)
    return text


def by_name_of_clause(text, names):
    """Where a function has several clauses, the answer at its return is a record of them by name."""
    m = re.search(r"^\S+ \S+ =\s*((?:.|\n)*)$", text)
    whole = m.group(1).strip() if m else ""
    if names and whole.startswith("(") and whole.endswith(")"):
        parts = pieces(whole[1:-1])
        if len(parts) == len(names):
            return text[: m.start(1)].rstrip() + "\n    record {\n" + "".join(f"      {n} = {t};\n" for n, t in zip(names, parts)) + "    }"
    return text


def turn(path, names, crate):
    said = []
    text = open(path, encoding="utf-8").read()
    where = os.path.relpath(os.path.dirname(path), os.path.join(crate, "proofs"))
    key = None
    for k in names:
        if ".Lts" in k and k.split("-proofs.", 1)[-1].rsplit(".Lts", 1)[0] == where.replace("/", "."):
            key = k
    if key is None:
        return None, None, [f"no names for {where}"]
    f = Function(where, names[key], crate, said)
    uses, rest, head = [], [], []
    for b in blocks(text):
        lines = b.split("\n")
        if any(l.startswith("use ") for l in lines):
            for l in lines:
                if l.startswith("use "):
                    uses.append(l)
                elif l.startswith("--"):
                    head.append(l)
                elif uses:
                    uses[-1] += "\n" + l
        else:
            rest.append(b)
    uses = [u for u in uses if not re.search(r"\.(Statement|Tie)\b", u)]
    spec = [b for b in rest if re.search(r"^\S+[-_]spec\s*=", b, re.M) or re.search(r"^pub \S+[-_]spec\s*:", b, re.M)]
    order = []
    for s in spec:
        m = re.search(r"tie\.spec((?:.|\n)*)\)\s*$", s)
        if m:
            order = split_args(m.group(1))
    order = [a for a in order if not re.match(r"^(invariant|decreases)-", a)]
    defs = {}
    for b in rest:
        m = re.search(r"^(?:pub )?([^\s:(){}]+) : tie\.Need-(\S+)", b, re.M)
        if m:
            defs[m.group(1)] = (m.group(2), b)
    for b in rest:
        if b not in spec and not re.search(r": tie\.Need-", b):
            name, takes, gives = f.head(b)
            f.helpers[name] = gives
            if len(takes) == 1:
                f.takes[name] = list(takes.values())[0]
            if f.navigates(b):
                f.nav.append(name)
    by_name = {}
    if order and len(order) == len(f.needs):
        for a, (old, now) in zip(order, f.needs):
            by_name[a] = now
    else:
        said.append(f"{where}: {len(order)} answers for {len(f.needs)} goals")
    out, inv = [], []
    for b in rest:
        if b in spec:
            continue
        m = re.search(r"^(?:pub )?([^\s:(){}]+) : tie\.Need-(\S+)", b, re.M)
        if m:
            name, old = m.groups()
            now = by_name.get(name) or f.need(old)
            if now is None:
                said.append(f"{where}: goal {old} is not there")
                now = old
            comment = "\n".join(l for l in b.split("\n") if l.startswith("--"))
            code = "\n".join(l for l in b.split("\n") if not l.startswith("--"))
            code = re.sub(r"(?m)^(unfolding [^\n]*)\n +(?=[^\n]*$)", lambda k: k.group(1) + " ", code)
            sig, *more = code.split("\n")
            unf = [l for l in more if l.startswith("unfolding")]
            term = "\n".join(l for l in more if not l.startswith("unfolding"))
            head_re = re.compile(r"^" + re.escape(name) + r"((?: [^\s=:]+)*)\s*=", re.M)
            mm = head_re.search(term)
            if mm is None:
                said.append(f"{where}: {name} has no single equation")
                out.append(b)
                continue
            params = mm.group(1).split()
            rhs = term[mm.end():]
            if rhs.strip() == "search rules" and not unf:
                continue
            if len(params) == 2 and params[1] == "κs":
                params = params[:1]
            # other names of the answer in its own text
            term = now + " " + " ".join((["g"] if f.own in GENERIC else []) + params) + " =" + rhs
            several = CLAUSES.get(f.own, {}).get("ensures") if now.startswith("returns") else None
            answer = by_name_of_clause(tidy(f.body(term, f.env(now, params[0]), now)), several)
            lines = ([comment] if comment else []) + [f"pub {now} : goal.{now}"] + unf + [answer]
            out.append("\n".join(lines))
            continue
        m = re.search(r"^abbrev (?:pub )?((?:invariant|decreases)\S*) : tie\.", b, re.M)
        if m:
            inv.append((m.group(1), b))
            continue
        name, env, _ = f.head(b)
        if name in f.nav:
            continue
        out.append(tidy(f.body(b, env, None)))
    for i, a in enumerate(order):
        if a.startswith("(") and len(order) == len(f.needs):
            mm = re.match(r"^\(λ (\S+)(?: κs)?\. ((?:.|\n)*)\)$", a)
            if mm and mm.group(2).strip() != "search rules":
                now = f.needs[i][1]
                answer = f.body(f"{now} {mm.group(1)} =\n    {mm.group(2)}", f.env(now, mm.group(1)), now)
                out.append(f"pub {now} : goal.{now}\n" + tidy(answer))
            elif not mm:
                said.append(f"{where}: argument {a[:60]}")
    goals = f"use Rattle.{os.path.basename(os.path.abspath(crate))}.proofs.{where.replace('/', '.')}"
    answers = None
    if out:
        places = [goals + ".Goals.{" + ", ".join(sorted(f.named)) + "}"] if f.named else []
        answers = "\n".join(head + uses + [goals + ".Goals as goal"] + places + [""]) + "\n" + "\n\n".join(out) + "\n"
    invariants = None
    if inv:
        invariants = invariants_of(f, inv, head, uses, goals, said)
    return answers, invariants, said


def invariants_of(f, inv, head, uses, goals, said):
    """`invariant-loop n store₀ store k = ..` by position becomes a function of the record `l`."""
    loops = {l[0][0]: (l[0][1], l[1], c) for l, c in zip(f.entry["loops"], f.entry["changed"])}
    out = []
    for name, b in inv:
        kind, loop = re.match(r"(invariant|decreases)-(\S+)", name).groups()
        entry = loops.get(loop)
        if entry is None:
            said.append(f"{f.path}: loop {loop} is not there: {list(loops)}")
            out.append(b)
            continue
        new_loop, variables, changed = entry
        # a variable that the loop changes stands twice: where it began, and, behind all of them, where it is
        fields = [("initial." if c else "") + v for v, c in zip(variables, changed)] + [v for v, c in zip(variables, changed) if c]
        lines = b.split("\n")
        comment = [l for l in lines if l.startswith("--")]
        unf = [l for l in lines if l.startswith("unfolding")]
        term = "\n".join(l for l in lines if not l.startswith(("--", "unfolding", "abbrev")))
        m = re.match(re.escape(name) + r"((?: [^\s=:]+)*)\s*=", term)
        params = m.group(1).split()
        rhs = term[m.end():]
        if len(params) != len(fields):
            said.append(f"{f.path}: {name} has {len(params)} variables, the loop {len(fields)}: {fields}")
        for p, fld in zip(params, fields):
            if p != "_":
                rhs = re.sub(r"(?<![\w.'₀-₉-])" + re.escape(p) + r"(?![\w'₀-₉-])(?! = )", lambda mm: "l." + fld, rhs)
        name = f"{kind}-{new_loop}"
        equation = f"{name} {'g ' if f.own in GENERIC else ''}l =" + rhs
        out.append("\n".join(comment + [f"abbrev pub {name} : goal.{name}"] + unf + [equation]))
    return "\n".join(head + uses + [goals + ".Given as goal", ""]) + "\n" + "\n\n".join(out) + "\n"


def main():
    names = json.load(open(sys.argv[1], encoding="utf-8"))
    crate = sys.argv[2]
    only = sys.argv[3:]
    CLAUSES.update(clause_names(os.path.join(crate, "../..")))
    GENERIC.update(generic_names(os.path.join(crate, "../..")))
    LENT.update(lent_names(os.path.join(crate, "../..")))
    if os.environ.get("WORDS"):
        WORDS.update(l.split() for l in open(os.environ["WORDS"], encoding="utf-8") if len(l.split()) == 2)
    for path in sorted(glob.glob(os.path.join(crate, "proofs/**/Proof.antt"), recursive=True)):
        where = os.path.relpath(os.path.dirname(path), os.path.join(crate, "proofs"))
        if only and where not in only:
            continue
        answers, invariants, said = turn(path, names, crate)
        for s in said:
            print(s)
        if answers is None and invariants is None and said:
            continue
        if answers:
            open(os.path.join(os.path.dirname(path), "Answers.antt"), "w", encoding="utf-8").write(answers)
        if invariants:
            open(os.path.join(os.path.dirname(path), "Invariants.antt"), "w", encoding="utf-8").write(invariants)
        os.remove(path)


if __name__ == "__main__":
    main()
