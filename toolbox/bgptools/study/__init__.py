"""A study as one archive that others check: scripts, commands, results, logs, and which program made them.

`commands` has the tools that a study may call, and checks their words. `definition` reads a study, `execution` runs it,
`contents` makes the files of its archive, `archive` packs and unpacks them, `comparison` tells what differs.

A new tool of studies belongs in `commands`. The tool `bundle` calls this."""
