graph [
  Network "Ring"
  node [ id 0 label "Lisboa" Country "Portugal" ]
  node [ id 1 label "Porto" Country "Portugal" ]
  node [ id 2 label "A Coruña" Country "Spain" ]
  node [ id 3 label "Madrid" Country "Spain" ]
  edge [ source 0 target 1 LinkSpeed "40" LinkSpeedUnits "G" ]
  edge [ source 1 target 2 LinkSpeed "10" LinkSpeedUnits "G" ]
  edge [ source 2 target 3 LinkSpeed "10" LinkSpeedUnits "G" ]
  edge [ source 3 target 0 LinkSpeed "100" LinkSpeedUnits "G" ]
  edge [ source 3 target 0 LinkSpeed "10" LinkSpeedUnits "G" ]
]
