"""Two configurations of one network compared: what is in one only, with the lines of the files that say it; what that
does to routes; and the commands that lead from one to the other.

`side` reads a script or a folder of FRR or BIRD, `kind` says which it is. `parts` are what a network consists of,
`sources` the lines of the files for each, `difference` what is in one side only. `steps` orders the commands, and
`transients` says what is lost or leaked between them. `report` and `document` tell it.
"""
