"""Configurations of FRR. docs/reference/frr.md says what is taken over.

`files` finds the files of each router, `lines` puts their lines into blocks, `blocks` says what a line says, `reader`
does all that for a router. `lists`, `communities` and `rules` make rules of lists and route maps, `origins` finds
what is originated, `checks` says what a script does otherwise, `omission_table` what is left out. `from-frr` calls
`translation`."""
