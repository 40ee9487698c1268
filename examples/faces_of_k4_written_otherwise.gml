# The graph of faces_of_k4: nodes and edges are each numbered in their own order, whatever stands between them.
Version 1
graph [
  edge [ target 1 source 0 ]
  node [ label "first" id 0 ]
  edge [ source 2 target 0 ]
  edge [ source 0 target 3 target 0 ]
  node [ id 1 ]
  edge [ label "1" source 2 target 1 ]
  node [ id 2 graphics [ id 0 x 1.5 ] ]
  directed 1
  edge [ source 1 target 3 ]
  edge [ source +3 target 02 ]
  node [ id 3 ]
]
