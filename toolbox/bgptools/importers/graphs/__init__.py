"""Graphs in GraphML and GML, as of the Topology Zoo, as a script of one AS.

`files` reads a file by `gml` or `graphml` into a `graph`; `costs` says what its links cost, and `script` writes
routers, links and sessions. A new form of graph files belongs here. `from-graph` calls this."""
