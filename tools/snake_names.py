#!/usr/bin/env python3
"""Spells this repository's own definitions, lemmas, labels and variables of antt in snake case: `rowAt` and `row-at` become `row_at`.

usage: tools/snake_names.py [--check]      at the top of the repository, right after /opt/rattle/port/port.py

In crates/*/specs and crates/*/proofs every name changes but one that its file takes from a library, one behind such a library's name, and
the goals of a proof file (`tie.Need-..`). In crates/*/src the clauses and the `ghost use` items change; code, strings and the names of
functions stay. A comment changes where it names a definition that changed. A line `meets:` names two names of one file that become one.
--check writes nothing.
"""
import collections
import os
import re
import sys

NAME = r'[^\s(){}\[\].;,@"«»]+'
CHAIN = re.compile(rf"(?<![^\s(){{}}\[\],;@]){NAME}(?:\.{NAME})*")
LABELS_BEHIND = re.compile(rf"(?<=\))(?:\.{NAME})+")
USE = re.compile(r"(?m)^([ \t]*(?:pub )?(?:unfoldable )?use )([^\s{]+?)(?:\.\{([^{}]*)\}| as (\S+))?[ \t]*$")
GHOST_USE = re.compile(r"(?m)^([ \t]*(?:pub )?ghost use )([^\s{;]+?)(?:\.\{([^{}]*)\}| as ([^\s;]+))?;")
STRING = re.compile(r'"(?:[^"\\\n]|\\.)*"')
COMMENT = re.compile(r"(?m)(?<![^\s(){}\[\],;])--(?=\s|$).*$")
CLAUSE = re.compile(r"\b(?:requires|ensures|ghost)\b\*?[ \t]*(?:\w+[ \t]*)?(?::[ \t]*)?\{")
# What the scripts of the port made of a name of ours that is spelled as one of theirs, and what it is.
GARBLED = {"is_IsBody": "is_body"}
# Where two names of a file would become one, the lemma or the label gets another.
LAWS = """body-above row-said tag-margins all-to-come row-to bit-and in-float rust-text rust-options times-of ends-blank block-shown attribute-text
node-text first-wrong columns-from header-length attributes-give nodes-give pool-start row-texts numbers-at kind-right text-right range-numbers
range-values asked-of same-range same-ranges children-of stay-inside is-empty parent-of free_move all_valid no_longer all_two""".split()
RENAMED = {"most-depth": "depth_within", "fifth-of-any": "a_fifth_of_any", "preDepth": "pre_depth_of", "goOn": "going_on", "isADivOrLi": "is_a_div_or_li", "byte-Reads": "byte_reads"}
RENAMED.update((name, re.sub("-", "_", name) + "_law") for name in LAWS)


LABELS = ("most-depth", "fifth-of-any", "header-length")


def snake(name, is_label=False):
    name = GARBLED.get(name, name)
    if name in RENAMED and (not is_label or name in LABELS):
        return RENAMED[name]
    if name.startswith("Need-"):
        return name
    if name[:1].islower() and not re.fullmatch(r"[a-z]+[A-Z]", name):
        name = re.sub(r"(?<=[a-z0-9₀-₉])[A-Z]", lambda m: "_" + m[0].lower(), name)
    elif re.fullmatch(r"[a-z]+[A-Z]", name):
        name = name[:-1] + "_" + name[-1].lower()
    name = re.sub(r"(?<=[\w'₀-₉])-(?=[\w'])", "_", name)
    return name.replace("′", "'")


def is_own(path, crates):
    words = path.split(".")
    return words[0] == "Rattle" and len(words) > 1 and words[1] in crates


def names_of(listed):
    for it in (listed or "").split(","):
        for name in it.split(" as "):
            if name.strip():
                yield name.strip()


class Turner:
    def __init__(self, crates):
        self.crates, self.turned = crates, {}

    def chain(self, text, outside, aliases):
        words = text.split(".")
        if words[0] in aliases or words[0] == "tie":
            return text
        if words[0] in ("Rattle", "mathlib", "Prim", "native", "lib", "borrow") and not is_own(text, self.crates):
            return text
        new = [words[0] if words[0] in outside else snake(words[0])] + [snake(w, True) for w in words[1:]]
        for k, (old, now) in enumerate(zip(words, new)):
            if old != now and (not k or old not in self.turned):
                self.turned[old] = now
        return ".".join(new)

    def plain(self, text, outside, aliases):
        text = CHAIN.sub(lambda m: self.chain(m[0], outside, aliases), text)
        return LABELS_BEHIND.sub(lambda m: ".".join(snake(w, True) for w in m[0].split(".")), text)

    def code(self, text, outside, aliases):
        """Turns what stands outside strings and comments."""
        kept = [(m.start(), m.end()) for m in STRING.finditer(text)]
        said = [(m.start(), m.end()) for m in COMMENT.finditer(text) if not any(a <= m.start() < b for a, b in kept)]
        kept = [it for it in kept if not any(a <= it[0] < b for a, b in said)]
        out, at = [], 0
        for a, b in sorted(kept + said):
            out.append(self.plain(text[at:a], outside, aliases))
            out.append(text[a:b])
            at = b
        out.append(self.plain(text[at:], outside, aliases))
        return "".join(out)

    def outside_of(self, text, use):
        outside, aliases = set(), set()
        for m in use.finditer(text):
            if not is_own(m[2], self.crates):
                outside.update(names_of(m[3]))
                if m[4]:
                    aliases.add(m[4])
        return outside, aliases

    def antt(self, text):
        outside, aliases = self.outside_of(text, USE)
        parts, at = [], 0
        for m in USE.finditer(text):
            parts.append(self.code(text[at:m.start()], outside, aliases))
            parts.append(self.code(m[0], set(), set()) if is_own(m[2], self.crates) else m[0])
            at = m.end()
        parts.append(self.code(text[at:], outside, aliases))
        return "".join(parts)

    def rt(self, text):
        outside, aliases = self.outside_of(text, GHOST_USE)
        spans = [(m.start(), m.end(), is_own(m[2], self.crates)) for m in GHOST_USE.finditer(text)]
        for m in CLAUSE.finditer(text):
            deep, k = 0, m.end() - 1
            while k < len(text):
                deep += (text[k] == "{") - (text[k] == "}")
                k += 1
                if not deep:
                    break
            spans.append((m.end(), k, True))
        parts, at = [], 0
        for a, b, turns in sorted(spans):
            if a < at:
                continue
            parts.append(text[at:a])
            piece = text[a:b]
            is_use = piece.lstrip().startswith(("ghost use", "pub ghost use"))
            parts.append(self.code(piece, set() if is_use else outside, aliases) if turns else piece)
            at = b
        parts.append(text[at:])
        return "".join(parts)


def comments(text, turned, mark):
    """Names a definition in a comment as it is spelled now: a word with a capital inside anywhere, another between backquotes."""

    def line(m):
        def word(w):
            return turned.get(w[0], w[0])

        said = re.sub(r"(?<![\w'-])[a-z]\w*[a-z0-9][A-Z]\w*(?![\w'-])", word, m[0])
        return re.sub(r"(?<=`)[^`\s]+(?=`)", word, said)

    return re.sub(rf"(?m)(?<![^\s(){{}}\[\],;]){mark}(?=\s|$).*$", line, text)


def main(argv):
    crates = set(os.listdir("crates"))
    turner, files = Turner(crates), {}
    for folder, dirs, names in os.walk("crates"):
        dirs[:] = sorted(d for d in dirs if d != "out")
        for name in sorted(names):
            path = os.path.join(folder, name)
            if name.endswith(".antt") or name.endswith(".rt"):
                with open(path, encoding="utf-8") as f:
                    files[path] = f.read()
    new = {path: turner.antt(text) if path.endswith(".antt") else turner.rt(text) for path, text in files.items()}
    for path, text in sorted(files.items()):
        words = collections.defaultdict(set)
        heads = COMMENT.sub("", STRING.sub("", text)) if path.endswith(".antt") else " ".join(m[3] or "" for m in GHOST_USE.finditer(text))
        for m in CHAIN.finditer(heads):
            first = m[0].split(".")[0]
            words[turner.turned.get(first, first)].add(first)
        for now, olds in sorted(words.items()):
            if len(olds) > 1:
                print(f"meets: {path}: {' and '.join(sorted(olds))} are {now}")
    for path, text in new.items():
        text = comments(text, turner.turned, "--" if path.endswith(".antt") else "//")
        if text != files[path] and "--check" not in argv:
            with open(path, "w", encoding="utf-8") as f:
                f.write(text)
    print(f"{len(turner.turned)} names are spelled anew")


if __name__ == "__main__":
    sys.exit(main(sys.argv[1:]))
