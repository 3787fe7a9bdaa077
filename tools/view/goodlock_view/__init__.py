"""Shows reports of goodlock as findings: in the terminal, as a page, for code hosts and for Graphviz.

A report (its JSON form) lists cycles. Cycles with the same pairs of places are one *finding*: what a programmer mends
once. docs/VIEWING.md has the rules, the known file's format and examples. From the reports to what is shown:

    reports -> findings -> fingerprints -> known -> text, page (with picture), sarif, dot
                           (with sources)

The package needs Python's standard library alone, from version 3.9 on, and runs from a folder or from a zipapp file.
"""

__version__ = "0.1.0"
TOOL = "goodlock-view"
