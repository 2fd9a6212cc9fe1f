"""Tables and updates of collectors as the feeds of one router's peers: MRT (RFC 6396), and the text of `bgpdump -m`.

`selection` says which routes are taken, `feeds` writes the script of what peers sent, `omissions` tells what is left
out. `mrt` reads the records of a file, `mrt_feeds` makes feeds of tables, `mrt_updates` replays updates, whose messages
`bgp_messages` reads; `bgpdump` reads lines of text. Called by `from-mrt`, `from-rib` and the importer of C-BGP."""
