graph [
  multigraph 1
  name "wheel"
  node [
    id 0
    label "hub"
  ]
  node [
    id 1
    label "caf&#233;"
  ]
  node [
    id 2
    label "2"
    weight -1.5
  ]
  edge [
    source 0
    target 1
    key 0
    weight 0.25
  ]
  edge [
    source 0
    target 1
    key 1
    weight 1e-07
  ]
  edge [
    source 0
    target 2
    key 0
  ]
  edge [
    source 1
    target 2
    key 0
    capacity +INF
  ]
]
