"""A run of the program with its network, and the deliveries until all queues are empty.

`run` plays a script and keeps what was accepted. `delivery` has the program deliver in an order of `orders`, and keeps
what it delivered; `queues` knows where messages may wait; `recurrence` finds why deliveries do not end.
`stable_states` sees in which stable states random orders end. `all_states` finds all of them: `candidate_routes` asks
for the routes that routers can hold, `assignments` searches, `state_deliveries` reaches what was found.
`delivery_script` writes a script with its deliveries, `tables_by_prefix` plays a large network in parts, `transcript`
shows replies.

An order of deliveries and a search for stable states belong here. `change` and what stands above it call this."""
