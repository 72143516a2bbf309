"""What the tools stand on, and the tests too: a plain model of fdref, and all that holds something against it.

- `places`: the top folder of the tree, and the paths of the built programs
- `commands`: the command that runs fdref, as the tools take it
- `counting`: `Count` counts checks, prints each failure and the last line; `Failure`, `require`, `same`
- `running`: `run` runs a program with a time limit and gives its status, standard output and error
- `texts`: where two outputs differ, and short forms of long ones
- `plain_model`: the plain model of the program, with the table of calls, and the reader and the writer of scripts
- `walks` and `shrinking`: random scripts, and short ones that fail as a long one does
- `runs`: the lines of a run, and a run in which calls go on by themselves
- `frames`: the bytes of sessions and traces, written and read
- `auditing`: a plain auditor of traces, by the plain model
- `serving`: a server whose trace is audited, a socket for what stands in for one, and clients whose waits are bounded
- `histories`: what several processes did at once, call by call, with the times
- `ordering`: whether an order explains a history; `searching` looks for it, by states (`worlds`), by what calls touch
  (`footprints`), by what later answers tell (`foretold`) and by what nobody looks at (`unseen`); `shortening` makes
  short what has none, and `pieces` parts large writes; `replaying` holds an order against the program
- `outcomes`: a search of all that a race may answer
- `summaries` and `tallies`: what runs that are shared out have counted
- `call_logs`: the logs of the library for LD_PRELOAD; `trees`: a program with all that comes of it
- `drivers`: the drivers of tools/, which are compiled, and whose scripts leave nothing

A tool imports it as `support`, since a Python looks in the folder of the script that it runs.
"""
