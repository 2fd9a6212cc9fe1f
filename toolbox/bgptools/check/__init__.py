"""What is wrong in a converged network as it is.

`finding` is one line of the answer, and the order of kinds. `forwarding` looks for loops, black holes and missing
routes, `next_hops` for next hops without a way, `sessions` for those that are down, `orders` for several stable states,
`failures` for single points of failure, `redundancy` and `transit` for what is worth a note. `checks` runs all,
`report` tells them.

A new check belongs beside these, and its kind in `finding`. The tool `check` calls this."""
