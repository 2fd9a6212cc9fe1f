"""Pictures of a network: what they show, where it stands, and how it is drawn.

`observation` asks a run what is to be seen, `selection` says of which routers; a `scene` holds it as plain data, and
`overview` one of ASes. `layout` places it by `graphviz`, with `incremental_layout` and `edge_routing`. `renderer` and
`shapes` draw SVG, `dot` writes DOT. `steps` and `page` are the page of steps, `step_view` and
`snapshots` what a page of `lab` shows.

A new view belongs in `observation` and `scene`. `api`, `jobs`, `web` and the tools call this."""
