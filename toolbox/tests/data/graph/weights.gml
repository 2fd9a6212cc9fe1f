# as networkx writes a directed graph with weights
Creator "a hand"
graph [
  directed 1
  node [
    id 0
    label "a"
  ]
  node [
    id 1
    label "b"
    graphics [ x 10.5 y -3 fill "#CCCCFF" ]
  ]
  node [
    id 2
    label "c"
  ]
  node [
    id 3
    label "a"
  ]
  edge [
    source 0
    target 1
    weight 10
  ]
  edge [
    source 1
    target 0
    weight 12.0
  ]
  edge [
    source 1
    target 2
    weight 2.5
  ]
  edge [
    source 2
    target 1
    weight 2.5
  ]
  edge [
    source 2
    target 3
    weight 1e6
  ]
  edge [
    source 3
    target 0
    weight "S&eacute;ries"
  ]
  edge [
    source 0
    target 2
    weight 20
  ]
  edge [
    source 0
    target 2
    weight 7
  ]
]
