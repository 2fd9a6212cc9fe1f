"""What is configured in a network, without a single route: those the program alone decides.

`configuration` keeps routers, links, sessions and policies from the lines that the program accepted. `refusals` says
a refusal in a sentence, `advertisement` what a router may send to whom, `prefix_parts` a network by its prefixes.
`graph_search` finds ways in a graph, `selection` says which of some routes a router chooses.

What is known of a network by its commands alone belongs here. `convergence` and what stands above it call this."""
