#!/usr/bin/env python3
"""Respells in proofs/F/ the hyphenated names, as the toolchain makes them: a name from source code keeps its `_` inside them.

`returns-in-err-end` is `returns-in_err-end` today, and `c.run-end-end` is `c.run_end-end` for `run_end`.
Run at the top of a checkout, once; names of crates follow, or all.
"""
import glob
import re
import sys

WORD = re.compile(r"[A-Za-z_][\w'\-]*[\w']")
ALWAYS = {"in_ok", "in_err", "in_default", "from_residual", "is_ok", "is_err", "push_reserved", "with_capacity",
          "extend_from_slice", "as_slice", "unsigned_abs", "checked_add", "checked_sub", "checked_mul", "checked_neg",
          "map_err", "ok_or", "is_some", "is_none", "is_empty", "push_str", "from_slice", "read_line", "split_at", "to_vec"}


def source_names():
    names = set(ALWAYS)
    for path in glob.glob("crates/*/src/**/*.rt", recursive=True):
        for line in open(path, encoding="utf-8"):
            names.update(re.findall(r"^\s*(?:requires|ensures|ghost)\*?\s+(\w*_\w+)\s*[{:]", line))
            if line.lstrip().startswith(("//", "ghost", "requires", "ensures")):
                continue
            names.update(w for w in re.findall(r"[A-Za-z]\w*_\w+", line))
    return names


def main():
    names = {n.replace("_", "-"): n for n in source_names()}
    longest = max(n.count("-") for n in names) + 1

    def respell(m):
        word = m[0]
        if "-" not in word:
            return word
        parts = word.split("-")
        out, i = [], 0
        while i < len(parts):
            for k in range(min(longest, len(parts) - i), 1, -1):
                key = "-".join(parts[i : i + k])
                if key in names:
                    out.append(names[key])
                    i += k
                    break
            else:
                out.append(parts[i])
                i += 1
        return "-".join(out)

    crates = sys.argv[1:] or ["*"]
    for crate in crates:
        for path in glob.glob(f"crates/{crate}/proofs/*/**/*.antt", recursive=True):
            lines, out = open(path, encoding="utf-8").read().split("\n"), []
            for line in lines:
                if re.match(r"\s*(pub )?use Rattle\.(std|\w+\.specs|\w+\.proofs\.[A-Z])", line) or line.startswith("--"):
                    out.append(line)
                else:
                    out.append(WORD.sub(respell, line))
            new = "\n".join(out)
            if new != "\n".join(lines):
                open(path, "w", encoding="utf-8").write(new)


main()
