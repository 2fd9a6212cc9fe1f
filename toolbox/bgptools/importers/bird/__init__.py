"""Configurations of BIRD 2. docs/reference/bird.md says what is taken over.

`files` finds the files, `lexer` makes words and items of them, `reader` says what an item says. `filters` are
statements as trees, `values` their values, `rules` what they become. `igp` and `links` find which routers are
neighbours, `checks` says what a script does otherwise, `omission_table` what is left out. `from-bird` calls
`translation`."""
