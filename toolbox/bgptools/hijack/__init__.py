"""A study of hijacks in a graph of ASes: for pairs of victim and attacker, who is captured.

`pairs` reads or draws the pairs, `deployment` says which ASes filter. `attack` has the kinds of hijack as commands,
`script` the network with filters, `player` plays a pair on the cone of the two. `descent` decides what is below, and
`outcome` says who is captured. `study` puts it together, `pool` works by processes, `results_file` keeps each result.
`table`, `statistics`, `plots` and `page` show them.

The tool `hijack` calls this."""
