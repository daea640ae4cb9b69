#!/usr/bin/env python3
"""Turns the proofs of functions, proofs/**/Proof.antt, to the names that today's Rattle makes.

usage: tools/turn_proofs.py CRATE..      at the top of the repository

An older proof answers needs by their old names and walks from record to record by `.before`. In each crate this runs
`rattle check --generated DIR --old-names`, which lists for each function the old and the new name of each need, place and step, and then
writes the new ones. A need that the old proof did not have is answered by the search; an answer to one that is gone is dropped.
It says what it could not turn. What a proof says is not changed.
"""

import json
import os
import re
import shutil
import subprocess
import sys
import tempfile

NAME = r"[^\s(){}.;,@\"«»\[\]\\λ]+"


def plain(name):
    """A name as the oldest spelling has it, to compare by."""
    return re.sub(r"-+", "-", name.removesuffix("_lem").replace("_", "-")).lower()


def bare_need(name):
    name = plain(name)
    return re.sub(r"^overflow-", "", name)


def chunks(text):
    """The declarations of a file: each a list of lines, beginning where a line begins at the margin, with the comment above it."""
    out, cur = [], []
    lines = text.split("\n")
    i = 0
    pending = []
    for line in lines:
        if line and not line[0].isspace() and not line.startswith(")") and not line.startswith("]"):
            if line.startswith("--"):
                if cur:
                    out.append(cur)
                    cur = []
                pending.append(line)
                continue
            if cur:
                out.append(cur)
            cur = pending + [line]
            pending = []
        else:
            if cur:
                cur.append(line)
            else:
                pending.append(line)
    if cur:
        out.append(cur)
    if pending:
        out.append(pending)
    return out


class Function:
    def __init__(self, path, made, said):
        self.path = path
        self.made = made
        self.said = said
        self.places = {}
        for i, (old, parent, step, callee, rest) in enumerate(made["places"]):
            new = made["places_by_name"][i]
            arm = made["arms"][i] if i < len(made["arms"]) else None
            self.places[old] = {"old": old, "parent": parent, "step": step, "new": new, "arm": arm, "callee": callee}
        # "Joined" and the like
        self.by_plain = {}
        for p in self.places.values():
            self.by_plain.setdefault(plain(p["old"]), p)
        self.needs = made["needs"]
        self.asked = made["asked_at"]

    def say(self, text):
        self.said.append(f"{self.path}: {text}")

    # ---- places

    def final(self, place):
        """The last of the places within one arm, whose record has the arm's names; and how many steps further in it is."""
        n = 0
        while place and place["arm"]:
            further = [q for q in self.places.values() if q["parent"] == place["old"] and q["arm"] and q["arm"][0] == place["arm"][0] and q["arm"][1] == place["arm"][1] + 1]
            if not further:
                break
            place = further[0]
            n += 1
        return place, n

    def place(self, name):
        n = plain(name)
        if n in self.by_plain:
            return self.by_plain[n]
        m = re.sub(r"-(\d+)$", r"\1", n)
        if m in self.by_plain:
            return self.by_plain[m]
        m = re.sub(r"(\d+)$", r"-\1", n)
        if m in self.by_plain:
            return self.by_plain[m]
        return None

    def chain(self, place):
        while place:
            yield place
            place = self.places.get(place["parent"]) if place["parent"] else None

    def held(self, place):
        """The records behind a place by `.before`: an arm of a match passes by the places within it."""
        while place:
            yield place
            k = place["arm"][1] if place["arm"] else 1
            place = self.up(place, k)

    def up(self, place, k):
        for p in self.chain(place):
            if k == 0:
                return p
            k -= 1
        return None

    def field(self, place, k, old):
        """The new name of the old field `old`, k places above."""
        n = plain(old)
        m = re.sub(r"(\d+)$", r"-\1", n)
        at = self.up(place, k)
        if at and at["step"] and plain(at["step"][0]) in (n, m):
            return at["step"][1]
        found = [p for p in self.chain(place) if p["step"] and (plain(p["step"][0]) in (n, m) or plain(re.sub(r"(\d+)$", r"-\1", p["step"][0])) in (n, m))]
        if len(found) >= 1:
            if len(found) > 1:
                # the nearest at or above the depth that was written
                deeper = [p for i, p in enumerate(self.chain(place)) if p in found and i >= k - 1]
                self.say(f"`{old}` may be {', '.join(p['step'][1] for p in found)}")
                return (deeper or found)[0]["step"][1]
            return found[0]["step"][1]
        return None

    def below(self, place, k, old, rest):
        """What older proofs call `.inv` and `.taken` of a loop or a test."""
        if rest[:1] == ["inv"]:
            return ["invariant"] + rest[1:]
        if rest[:1] == ["taken"]:
            n = plain(old)
            m = re.sub(r"(\d+)$", r"-\1", n)
            for p in self.chain(place):
                if p["step"] and plain(p["step"][0]) in (n, m):
                    return ["true" if p["old"].startswith(("In-", "Then")) else "false"] + rest[1:]
        return rest

    def arm(self, place, old, rest):
        """The new path of the old step `old` with `rest` below it, where an arm of a match holds it; and how much of `rest` it takes."""
        n = plain(old)
        m = re.sub(r"(\d+)$", r"-\1", n)
        for p in self.chain(place):
            if not p["arm"]:
                continue
            name, _, fields = p["arm"]
            best = None
            for new, step, path in fields:
                if plain(step) in (n, m) and rest[: len(path)] == path and (path or n == "match" or new.endswith("-own")):
                    if best is None or len(path) > len(best[1]):
                        best = (new, path)
            if best:
                return f"{name}.{best[0]}", len(best[1])
        return None

    def of_call(self, place, old, rest):
        """`.new.1.0` and `.auto.1.0` of a call, by the parameter at that place: they have its name now."""
        n = plain(old)
        m = re.sub(r"(\d+)$", r"-\1", n)
        if rest[:1] not in (["new"], ["auto"]):
            return None
        for p in self.chain(place):
            if p["step"] and plain(p["step"][0]) in (n, m) and p["callee"]:
                names = PARAMETERS.get(p["callee"])
                if names is None:
                    return None
                i, k = 0, 1
                while k < len(rest) and rest[k] == "1":
                    i += 1
                    k += 1
                if k < len(rest) and rest[k] == "0" and i < len(names):
                    return f"{p['step'][1]}.{rest[0]}.{names[i]}", k + 1
        return None

    # ---- paths

    def turn_paths(self, text, vars, helpers, records, gives=None, deep=None):
        """Writes paths that begin at a variable of `vars` (its place by name) anew. `records` are helpers that give a record."""
        # A `let` that names what an arm gives is written out where it is used: its parts have names of their own now.
        for m in list(re.finditer(r"let (\S+) = (\S+\.(?:given|new|last|auto)) in\s+", text)):
            k, path = m.group(1), m.group(2)
            head = path.split(".")[0]
            alone = re.search(r"(?<![\w.'₀-₉-])" + re.escape(k) + r"(?![\w.'₀-₉-])", text[m.end():])
            if head in vars and not alone:
                tail = re.sub(r"(?<![\w.'₀-₉-])" + re.escape(k) + r"(?=\.)", lambda _: path, text[m.end():])
                text = text[: m.start()] + tail if text[: m.start()].rstrip() != text[: m.start()] or True else text
                return self.turn_paths(text, vars, helpers, records, gives, deep)
        out = []
        pos = 0
        token = re.compile(r"(?<![\w.'₀-₉-])(" + "|".join(re.escape(v) for v in sorted(vars, key=len, reverse=True)) + r")((?:\.«[^»]*»|\." + NAME + r")*)(?![\w'₀-₉-])") if vars else None
        lets = re.compile(r"let (\S+) = (\S+)(?: [\w.-]+)? in")
        depth = dict(deep or {})
        aliases = set()
        # a `let` that names a record further up
        for m in lets.finditer(text):
            v, path = m.group(1), m.group(2)
            w = re.fullmatch(r"(\S+?)((?:\.before)+)", path)
            if w and w.group(1) in vars:
                depth[v] = depth.get(w.group(1), 0) + w.group(2).count(".before")
                vars = dict(vars)
                vars[v] = vars[w.group(1)]
                aliases.add(m.group(0))
            elif path in records and re.match(r"let \S+ = \S+ \S+ in", text[m.start():]):
                vars = dict(vars)
                vars[v] = records[path]
            elif path in vars:
                depth[v] = depth.get(path, 0)
                vars = dict(vars)
                vars[v] = vars[path]
        if not vars:
            return text
        token = re.compile(r"(?<![\w.'₀-₉-])(" + "|".join(re.escape(v) for v in sorted(vars, key=len, reverse=True)) + r")((?:\.«[^»]*»|\." + NAME + r")*)(?![\w'₀-₉-])")

        def turn(m):
            var, path = m.group(1), m.group(2)
            place = vars[var]
            if not path and text[: m.start()].endswith("let "):
                return var
            parts = re.findall(r"\.(«[^»]*»|" + NAME + r")", path)
            k = 0
            while k < len(parts) and parts[k] == "before":
                k += 1
            parts = [{"type-inv": "type_inv", "last": "new"}.get(p, p) for p in parts]
            if k == len(parts):
                # a record is passed on: to a helper, it is that of the helper's place
                before = text[: m.start()]
                if gives and re.search(r"(?m)^\S+ " + re.escape(var) + r" = $", before) and not text[m.end():].strip():
                    for i, p in enumerate(self.held(place)):
                        if p is gives:
                            return var + ".before" * i
                if re.search(r"let \S+ = $", before) and text[m.end():].startswith(" in"):
                    return var
                h = re.search(r"(?<![\w.-])(" + NAME + r") $", before)
                want = None
                if h and h.group(1) in helpers:
                    want = helpers[h.group(1)]
                if want is None and (k or depth.get(var, 0)):
                    want = self.up(place, k + depth.get(var, 0))
                if want:
                    for i, p in enumerate(self.held(place)):
                        if p is want:
                            return var + ".before" * i
                return var + ".before" * k
            first = parts[k]
            if first in ("args", "requires", "pre", "ranges", "lifetimes", "well-formed", "well_formed", "ghost", "w", "type_inv"):
                new = first.replace("-", "_")
            else:
                special = self.arm(place, first.strip("«»"), parts[k + 1:]) or self.of_call(place, first.strip("«»"), parts[k + 1:])
                if special:
                    return var + "." + ".".join([special[0]] + parts[k + 1 + special[1]:])
                new = self.field(place, k + depth.get(var, 0), first.strip("«»"))
                parts = parts[: k + 1] + self.below(place, k + depth.get(var, 0), first.strip("«»"), parts[k + 1:])
                if new is None:
                    self.say(f"`{m.group(0)}`: no step {first} at {place['old']}")
                    new = first
            return var + "." + ".".join([new] + parts[k + 1:])

        text = token.sub(turn, text)

        # (helper x).field
        def turn_record(m):
            h, inner, path = m.group(1), m.group(2), m.group(3)
            parts = re.findall(r"\.(«[^»]*»|" + NAME + r")", path)
            k = 0
            while k < len(parts) and parts[k] == "before":
                k += 1
            if k == len(parts):
                return m.group(0)
            first = parts[k]
            if first in ("args", "requires", "ranges", "lifetimes"):
                new = first
            else:
                new = self.field(records[h], k, first.strip("«»")) or first
                parts = parts[: k + 1] + self.below(records[h], k, first.strip("«»"), parts[k + 1:])
            return f"({h} {inner}).{'.'.join([new] + parts[k + 1:])}"

        if records:
            text = re.sub(r"\((" + "|".join(re.escape(h) for h in records) + r") (" + NAME + r"(?:\." + NAME + r")*)\)((?:\." + NAME + r")+)", turn_record, text)
        return text

    # ---- needs

    def need(self, old):
        n = bare_need(old)
        for i, (was, new) in enumerate(self.needs):
            if plain(was) == n:
                return i
        for i, (was, new) in enumerate(self.needs):
            if bare_need(new) == n:
                return i
        return None


# The parameters of each function, by its path.
PARAMETERS = {}
# Variables of which a field is tested, as in `if !judged.good`: that test still says `not`.
FIELD_TESTS = {}


def read_sources(top):
    for crate in os.listdir(os.path.join(top, "crates")):
        src = os.path.join(top, "crates", crate, "src")
        if not os.path.isdir(src):
            continue
        for name in os.listdir(src):
            if not name.endswith(".rt"):
                continue
            text = open(os.path.join(src, name), encoding="utf-8").read()
            FIELD_TESTS.setdefault(crate, set()).update(re.findall(r"!(\w+)\.\w+(?![\w(])", text))
            module = [] if name in ("lib.rt", "main.rt") else [name[:-3]]
            spans = [(m.start(), m.group(1)) for m in re.finditer(r"(?m)^impl (\w+)", text)]
            ends = [m.start() for m in re.finditer(r"(?m)^}", text)]
            for m in re.finditer(r"(?m)^( *)(?:pub )?(?:unsafe )?(?:extern \"C\" )?fn (\w+)(?:<[^>]*>)?\(([^)]*)\)", text):
                owner = []
                if m.group(1):
                    before = [s for s in spans if s[0] < m.start()]
                    if before:
                        owner = [before[-1][1]]
                parameters = [p.strip() for p in re.split(r",\s*(?![^\[]*\])", m.group(3)) if p.strip()]
                names = [p.split(":")[0].strip().removeprefix("mut ").strip() for p in parameters]
                path = "::".join([crate, *module, *owner, m.group(2)])
                PARAMETERS[path] = names


def dependencies(top):
    out = {}
    for line in open(os.path.join(top, "crates.txt"), encoding="utf-8"):
        line = line.strip()
        if line and not line.startswith("#"):
            name, rest = line.split(":")
            out[name.split()[0]] = rest.split()
    return out


def root_file(top, crate):
    lib = os.path.join(top, "crates", crate, "src", "lib.rt")
    return lib if os.path.exists(lib) else os.path.join(top, "crates", crate, "src", "main.rt")


def list_of_names(top, crate):
    """The list of names that rattle makes of a crate, with the crates below it passed as source, so that none need be proved."""
    kit = os.path.dirname(os.path.dirname(os.path.realpath(shutil.which("rt"))))
    needs = dependencies(top)
    words = [os.path.join(kit, "bin", "rattle"), "check", "--crate-name", crate, root_file(top, crate)]
    for d in needs[crate]:
        if d in needs:
            words += ["--lib", f"{d}:{','.join([x for x in needs[d] if x in needs] + ['std'])}={root_file(top, d)}"]
    words += ["--extern", f"std={kit}/rlibs/std.rlib", "-L", f"dependency={kit}/rlibs", "--antt-project", f"{kit}/rattle/logic/antt-project.json"]
    words += ["--logic-built", f"{kit}/logic_built"]
    with tempfile.TemporaryDirectory() as d:
        r = subprocess.run(words + ["--generated", d, "--old-names"], capture_output=True, text=True)
        p = os.path.join(d, "names.json")
        if not os.path.exists(p):
            print(f"{crate}: no list of names: {(r.stdout + r.stderr)[:1500]}")
            return None
        return json.load(open(p))




def turn_file(path, made, folder, said, crate, rel):
    text = open(path, encoding="utf-8").read()
    f = Function(path, made, said)
    decls = chunks(text)
    # which declarations answer which need
    names_of_needs = {}
    spec_args = None
    sig = re.compile(r"(?m)^(?:abbrev |unfoldable |pub )*(\S+) :")
    for d in decls:
        body = "\n".join(d)
        if "tie.spec" in body:
            m = re.search(r"\(\s*tie\.spec\s*([^()]*)\)", body)
            if m:
                spec_args = m.group(1).split()
    loops = f.made["loops"]
    loop_new = {plain(a[0][0]): a[0][1] for a in loops}

    def loop_name(old):
        n = plain(old)
        for cand in (n, re.sub(r"-(\d+)$", r"\1", n), re.sub(r"(\d+)$", r"-\1", n)):
            if cand in loop_new:
                return loop_new[cand]
        return None

    # helpers' places
    helpers, records = {}, {}
    for d in decls:
        body = "\n".join(l for l in d if not l.startswith("--"))
        m = sig.search(body)
        if not m:
            continue
        name = m.group(1)
        first = re.search(r" :\s+(?:\(\S+ : )?tie\.(" + NAME + r")", body)
        if first and not first.group(1).startswith(("Need-", "invariant-", "decreases-")):
            p = f.place(first.group(1))
            if p:
                helpers[name] = f.final(p)[0]
            res = re.search(r" : tie\." + NAME + r"(?: [\w-]+)* → tie\.(" + NAME + r")", body)
            if res and f.place(res.group(1)):
                records[name] = f.final(f.place(res.group(1)))[0]

    # two declarations of one name: the signature and its clauses
    groups = []
    for d in decls:
        head = next((l for l in d if not l.startswith("--") and l.strip()), "")
        m = re.match(r"(?:abbrev |unfoldable |pub |data |record )*(\S+) :(?: |$)", head)
        if m:
            groups.append([m.group(1), [d]])
        elif groups and groups[-1][0] and re.match(r"unfolding |" + re.escape(groups[-1][0]) + r"[ ]", head):
            groups[-1][1].append(d)
        elif groups and groups[-1][0] and head and not head.startswith(("use ", "module ", "record ", "data ", "pub use", "where")) and head.split()[0] == groups[-1][0]:
            groups[-1][1].append(d)
        else:
            groups.append([None, [d]])

    out = []
    answered = {}
    # Needs that match by no name are taken in their order, where as many are left on both sides.
    olds = [m.group(1) for name, ds in groups if name for m in [re.search(r"tie\.Need-(" + NAME + r")", "\n".join("\n".join(d) for d in ds))] if m]
    lost = [o for o in olds if f.need(o) is None]
    matched = {f.need(o) for o in olds}
    unmatched = [i for i in range(len(f.needs)) if i not in matched]
    by_order = dict(zip(lost, unmatched)) if len(lost) == len(unmatched) else {}
    for o, i in by_order.items():
        f.say(f"need {o} is taken for {f.needs[i][1]} by its place")
    fn = os.path.basename(folder)
    for name, ds in groups:
        body = "\n".join("\n".join(d) for d in ds)
        code = "\n".join(l for l in body.split("\n") if not l.startswith("--"))
        if name is None:
            out.append(body)
            continue
        if "tie.close" in code:
            continue
        m = re.search(r"tie\.Need-(" + NAME + r")", code)
        if m:
            i = f.need(m.group(1))
            if i is None:
                i = by_order.get(m.group(1))
            if i is None:
                f.say(f"need {m.group(1)} is gone; its answer was dropped")
                continue
            was, new = f.needs[i]
            place = f.place(f.asked[i][0])
            body = body.replace(f"tie.Need-{m.group(1)}", f"tie.Need-{new}")
            c = re.search(r"(?m)^" + re.escape(name) + r" (\S+)", body.split("\n", 1)[1] if "\n" in body else body)
            vars = {}
            cl = [l for l in body.split("\n") if l.startswith(name + " ") and " :" not in l.split("=")[0]]
            if cl:
                v = cl[0].split()[1]
                if place and re.fullmatch(r"[a-z]\w*", v):
                    vars[v] = place
            body = f.turn_paths(body, vars, helpers, records)
            answered[i] = name
            out.append(body)
            continue
        m = re.search(r"tie\.(invariant|decreases)-(" + NAME + r")", code)
        if m and re.search(r" : tie\.(invariant|decreases)-", code) and re.match(r"(?:abbrev |pub )*\S+ : tie\.(invariant|decreases)-", code.strip()):
            new = loop_name(m.group(2))
            if not new:
                f.say(f"loop {m.group(2)} is gone")
                out.append(body)
                continue
            body = body.replace(m.group(0), f"tie.{m.group(1)}-{new}")
            # order of the variables
            for (pair, vs), ch in zip(loops, f.made["changed"]):
                if pair[1] == new:
                    want = [v + "₀" if c else v for v, c in zip(vs, ch)] + [v for v, c in zip(vs, ch) if c]
                    cl = [l for l in body.split("\n") if l.startswith(name + " ") and " :" not in l.split("=")[0]]
                    if cl:
                        have = cl[0].split("=")[0].split()[1:]
                        if len(have) != len(want):
                            f.say(f"{name} has {len(have)} variables ({' '.join(have)}), and the loop {len(want)} ({' '.join(want)})")
                        elif have != want:
                            f.say(f"note: {name} names {' '.join(have)} what the loop names {' '.join(want)}")
            out.append(body)
            continue
        # a helper
        vars = {}
        deep = {}
        for mm in re.finditer(r"\((\S+) : tie\.(" + NAME + r")", code):
            p = f.place(mm.group(2))
            if p:
                vars[mm.group(1)], deep[mm.group(1)] = f.final(p)
        if name in helpers:
            cl = [l for l in body.split("\n") if l.startswith(name + " ") and " :" not in l.split("=")[0]]
            if cl:
                v = cl[0].split()[1]
                if re.fullmatch(r"[a-z]\w*", v):
                    vars[v] = helpers[name]
                    m1 = re.search(r" :\s+(?:\(\S+ : )?tie\.(" + NAME + r")", code)
                    if m1 and f.place(m1.group(1)):
                        deep[v] = f.final(f.place(m1.group(1)))[1]

        def place_name(mm):
            p = f.place(mm.group(1))
            if p:
                p = f.final(p)[0]
            if not p:
                f.say(f"place {mm.group(1)} is gone")
                return mm.group(0)
            return "tie." + p["new"]

        if vars:
            body = f.turn_paths(body, vars, helpers, records, records.get(name), deep)
        body = re.sub(r"tie\.((?!Need-|invariant-|decreases-|close|spec)" + NAME + r")", place_name, body)
        out.append(body)
    # the needs that have no answer
    extra = []
    for i, (was, new) in enumerate(f.needs):
        if i not in answered:
            invs = " ".join(a for a in (spec_args or []) if re.match(r"(invariant|decreases)", a) or a in ())
            mine = re.sub(r"[^\w-]", "-", new)
            extra.append(f"{mine} : tie.Need-{new}{' ' + invs if invs else ''}\n{mine} c = search rules")
            answered[i] = mine
            f.say(f"need {new} is new, and the search is asked")
    res = "\n".join(out).rstrip("\n") + "\n"
    res = re.sub(r"\n{3,}", "\n\n", res)
    if extra:
        res += "\n" + "\n\n".join(extra) + "\n"
        if "borrow.Author.Rules.{rules}" not in res:
            res = res.replace("\nuse ", "\nuse borrow.Author.Rules.{rules}\nuse ", 1) if not res.startswith("use ") else "use borrow.Author.Rules.{rules}\n" + res
    lead = []
    if spec_args is None:
        f.say("its last line was not found")
    else:
        n_old = [a for a in spec_args if a not in set(answered.values())]
        # what is no answer of a need comes first: invariants and measures
        lead = [a for a in spec_args if any(re.match(r"(?:abbrev |pub )*" + re.escape(a) + r" : tie\.(invariant|decreases)-", "\n".join(d for d in ds[0] if not d.startswith("--"))) for n, ds in groups if n == a)]
    args = lead + [answered[i] for i in range(len(f.needs))]
    one = f"    tie.close (tie.spec {' '.join(args)})" if args else "    tie.close tie.spec"
    res = res.rstrip("\n") + f"\n\npub {fn}_spec : {{M : Type 1}} → statement M\n{fn}_spec =\n{one}\n"
    own = PARAMETERS.get("::".join([crate] + rel.split("/")), [])
    local = lambda m: m.group(1) + own[int(m.group(2)) - 1] if int(m.group(2)) <= len(own) else m.group(0)
    res = re.sub(r"((?:args|(?<![\w.-])a)\.)t(\d+)(?![\w-])", local, res)
    res = re.sub(r"(?<=[\w)])\.pre(?![\w-])", ".requires", res)
    res = re.sub(r"\.inv(?=[\s.),])", ".invariant", res)
    # Where branches join, a sum of records is what it was, under another name.
    res = re.sub(r"\.branch(?![\w-])", ".branch-raw", res)
    # The test of `if !x` says now what it says of `x`.
    fields = FIELD_TESTS.get(crate, set())
    plainly = lambda m: m.group(0) if m.group(2) in fields else m.group(1)
    res = re.sub(r"not-(?:true|false) _ ((?:\w[\w-]*)(?:\.[\w-]+)*\.if-not-([\w-]+)\.(?:true|false))", plainly, res)
    open(path, "w", encoding="utf-8").write(res)


def main():
    top = os.getcwd()
    read_sources(top)
    for crate in sys.argv[1:]:
        where = os.path.join(top, "crates", crate)
        made = list_of_names(top, crate)
        if made is None:
            continue
        said = []
        n = 0
        for key, entry in made.items():
            m = re.fullmatch(r"Rattle-\w+-proofs\.(.*)\.Lts", key)
            if not m:
                continue
            folder = os.path.join(where, "proofs", *m.group(1).split("."))
            path = os.path.join(folder, "Proof.antt")
            if not os.path.exists(path):
                continue
            t = open(path, encoding="utf-8").read()
            if ".Tie as tie" not in t:
                said.append(f"{path}: a walk by hand")
                continue
            turn_file(path, entry, folder, said, crate, m.group(1).replace(".", "/"))
            n += 1
        print(f"{crate}: {n} proofs turned")
        for s in said:
            print("  " + s.replace(where + "/proofs/", ""))


main()
