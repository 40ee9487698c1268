# K2,3 with the sides 1 3 and 0 2 4: the graph of list_of_k23 in other numbers.
graph [
  node [ id 0 ]
  node [ id 1 ]
  node [ id 2 ]
  node [ id 3 ]
  node [ id 4 ]
  edge [ source 3 target 2 ]
  edge [ source 1 target 0 ]
  edge [ source 1 target 2 ]
  edge [ source 3 target 4 ]
  edge [ source 3 target 0 ]
  edge [ source 1 target 4 ]
]
