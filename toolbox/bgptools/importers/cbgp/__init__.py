"""Scripts of C-BGP. docs/reference/cbgp.md says what is taken over.

`lines` has the lines of scripts with those that they include, `reader` their contexts. `commands`, `igp`, `filters`
and `records` say what each does to a `network`; `rules` makes rules of filters, `script` a script of the network,
`checks` says what it does otherwise, `omission_table` what is left out. `from-cbgp` calls `translation`."""
