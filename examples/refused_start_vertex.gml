# Edge 4 is missing at node 3 of K4.
graph [
  node [ id 0 spqrRotation "0 2 1" ]
  node [ id 1 spqrRotation "0 3 4" ]
  node [ id 2 spqrRotation "1 5 3" ]
  node [ id 3 spqrRotation "2 5" ]
  edge [ source 0 target 1 ]
  edge [ source 0 target 2 ]
  edge [ source 0 target 3 ]
  edge [ source 1 target 2 ]
  edge [ source 1 target 3 ]
  edge [ source 2 target 3 ]
]
