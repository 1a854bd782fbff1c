"""The parts of `tools/trace`, `tools/check-run`, `tools/explore` and `tools/scenes`, which make logs of real programs for `deolmutt judge`.

`tracing` runs strace. `strace_lines` and `arguments` read what it printed, `processes` knows each process's directory, open files and actor,
`resolving` makes of each call a step of `steps`, and `ordering` puts the steps in the order in which they took effect in `directories`.
`making` has all that as one, line by line. `stopping` has commands go on a call at a time, for `schedules` and `trials`.
"""
