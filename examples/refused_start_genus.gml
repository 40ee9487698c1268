# The orders at the nodes of K4 are those of no plane drawing: they have two faces, and a line of the script is no command.
graph [
  node [ id 0 spqrRotation "0 1 2" ]
  node [ id 1 spqrRotation "0 4 3" ]
  node [ id 2 spqrRotation "1 3 5" ]
  node [ id 3 spqrRotation "2 4 5" ]
  edge [ source 0 target 1 ]
  edge [ source 0 target 2 ]
  edge [ source 0 target 3 ]
  edge [ source 1 target 2 ]
  edge [ source 1 target 3 ]
  edge [ source 2 target 3 ]
]
