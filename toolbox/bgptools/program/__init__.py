"""The program `bgpsim` as a process, and what every tool shares.

`process` runs the program line by line, and `location` finds it. `language` has the commands, `replies` the answers,
`script` a file's lines, `names` the names of routers. `mistakes`, `streams` and `output` are how a tool ends, prints
and writes a file; `process_pool` and `progress` are for long work, `libraries` tells which Python library is missing.

What knows no network belongs here. All other packages call it, and it calls none."""
