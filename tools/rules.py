"""The sections of docs/RULES.md, by the numbers of rules."""
import os
import re

PAGE = os.path.join(os.path.dirname(os.path.dirname(os.path.abspath(__file__))), "docs", "RULES.md")


def page():
    with open(PAGE, encoding="utf-8") as source:
        return source.read().split("\n")


def section(rule):
    """The lines of a rule's section without empty ones at its end, or nothing where there is none."""
    kept, on = [], False
    for line in page():
        heading = re.match(r"(##+) (\S+)", line)
        if heading:
            on = (heading[1] == "###" and heading[2] == str(rule)) or (on and heading[1] == "####")
        if on:
            kept.append(line)
    return "\n".join(kept).rstrip()


def titles():
    """The groups of rules with what each rule is called, in the order of the page."""
    told = []
    for line in page():
        if group := re.match(r"## (.*: \d+(?: to \d+)?)$", line):
            told.append((group[1], []))
        elif rule := re.match(r"### (\d+) (.*)$", line):
            told[-1][1].append((rule[1], rule[2]))
    return told


def all_rules():
    """All rules, a line each, below the names of their groups."""
    lines = []
    for group, members in titles():
        lines.append(group)
        lines += [f"  {rule}  {title}" for rule, title in members]
    return "\n".join(lines)
