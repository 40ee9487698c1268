graph [
  node [ id 0 ]
  node [ id 1 ]
  edge [ source 0 target 1 ]
  edge [ source "nowhere" label "no target" ]
  edge [ source 1 target 1 ]
]
