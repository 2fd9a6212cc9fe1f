"""AS relationships as a script with valley-free policies.

`caida` reads files in CAIDA's form, and writes the script. `cone` computes the part of a graph that decides the routes
of some origins exactly; `cone_script` says so in its script, and compares it with larger ones by the program.
`stub_decision` decides the ASes outside of it. `cuts` has parts that are not exact, and says what they lack.
`from-as-rel` calls them, and so do studies in Python."""
