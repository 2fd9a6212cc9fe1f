"""Networks that others describe, as scripts: a package for each kind of source.

`common` has what importers share, `tables` tables of routes, `frr`, `bird` and `cbgp` configurations, `graphs`
GraphML and GML, `relationships` the files of CAIDA. The order is drawn in docs/contributing/toolbox.md.

A new source is a new package here. Its command line is a module of `cli`, which calls it."""
