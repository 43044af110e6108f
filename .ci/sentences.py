#!/usr/bin/env python3
"""Reports the sentences of README.md and docs/ that have more than 25 words: a report, and no failure.

    .ci/sentences.py            how many each document has, and the longest
    .ci/sentences.py FILE..     each of them in these files, with its line

Headings, blocks of code, tables' rules and pictures are left out. A cell of a table and an item of a list end their sentence.
"""
import glob
import os
import re
import sys

MOST = 25
END = re.compile(r"(?<=[.!?:;])[\"')*`]*\s+(?=[\"'(*`\[]*[A-Z0-9`])")


def paragraphs(text):
    """Yields the paragraphs, items and cells of a document, each with the number of its first line."""
    found, begun, is_code = [], 0, False
    for number, line in enumerate([*text.split("\n"), ""], 1):
        if line.startswith("```"):
            is_code = not is_code
        plain = re.sub(r"^> ?", "", line.strip())
        is_break = is_code or not plain or line.startswith(("    ", "#", "```", "|", "<!--", "!["))
        if found and (is_break or re.match(r"([-*]|\d+\.) ", plain)):
            yield begun, " ".join(found)
            found = []
        if line.startswith("|"):
            for cell in plain.strip("|").split("|"):
                yield number, cell
        elif not is_break:
            if not found:
                begun = number
            found.append(re.sub(r"^([-*]|\d+\.) ", "", plain))


def sentences(text):
    """Yields the sentences of a document, each with its line and how many words it has."""
    for number, paragraph in paragraphs(text):
        paragraph = re.sub(r"\]\([^)]*\)", "]", paragraph)
        for sentence in END.split(paragraph):
            count = len([it for it in sentence.split() if re.search(r"\w", it)])
            yield number, count, sentence.strip()


def main(root, names):
    paths = names or [f"{root}/README.md", f"{root}/CONTRIBUTING.md", f"{root}/CHANGELOG.md", *sorted(glob.glob(f"{root}/docs/**/*.md", recursive=True))]
    total, longest = 0, (0, "", "")
    for path in filter(os.path.isfile, paths):
        with open(path, encoding="utf-8") as it:
            long = [(number, count, text) for number, count, text in sentences(it.read()) if count > MOST]
        total += len(long)
        where = os.path.relpath(path, root)
        for number, count, text in long:
            longest = max(longest, (count, f"{where}:{number}", text))
            if names:
                print(f"{where}:{number}: {count} words: {text}")
        if not names and long:
            print(f"{where}: {len(long)} sentences over {MOST} words, the longest {max(it[1] for it in long)}")
    print(f"{total} sentences over {MOST} words" + (f"; the longest has {longest[0]}, at {longest[1]}" if total else ""))


if __name__ == "__main__":
    main(os.path.dirname(os.path.dirname(os.path.realpath(__file__))), [os.path.abspath(it) for it in sys.argv[1:]])
